/*
 * A whole program over sigxume.h: writes the records of two fish, reads them back, compares the sequences and prints the listing
 * of the pair program. `make example` builds and runs it.
 */
#include "sigxume.h"

#include <inttypes.h>
#include <stdio.h>
#include <stdlib.h>
#include <string.h>

/* A fish: its number and its sequence. */
struct fish {
    uint16_t id;
    size_t count;
    uint32_t *sequence;
};

/* Ends the program where an answer is a refusal: its number to the listing, its cause to the person who runs this. */
static void check(const char *step, uint32_t refusal)
{
    if (refusal != SIGXUME_ACCEPTED) {
        printf("REFUSED %" PRIu32 "\n", refusal);
        fprintf(stderr, "%s: %s\n", step, sigxume_reason(refusal));
        exit(EXIT_FAILURE);
    }
}

/* A buffer of so many words. Of calloc, since it sees where the size in bytes would be too large. It may give NULL for a buffer of
 * no words, which the core takes. */
static uint32_t *buffer_of(size_t words)
{
    uint32_t *buffer = calloc(words, sizeof *buffer);
    if (buffer == NULL && words != 0) {
        fprintf(stderr, "no memory for %zu words\n", words);
        exit(EXIT_FAILURE);
    }
    return buffer;
}

/* Appends the record of a fish to a store of `used` words, and answers the words that it has then. A letter stands for a call: a
 * for code 1, b for code 2 and so on. */
static size_t append(uint32_t **store, size_t used, uint16_t id, const char *letters)
{
    size_t count = strlen(letters);
    uint32_t *sequence = buffer_of(count);
    for (size_t i = 0; i < count; i++)
        sequence[i] = SIGXUME_CALL(letters[i] - 'a' + 1);

    /* The core writes to the start of what it is lent, so a record goes to the end of the store by lending that end alone. */
    size_t room = sigxume_record_words(count);
    uint32_t *larger = buffer_of(used + room);
    if (used != 0)
        memcpy(larger, *store, used * sizeof *larger);
    sigxume_counted written = sigxume_write(id, sequence, count, larger + used, room);
    check("writing a record", written.refusal);

    free(sequence);
    free(*store);
    *store = larger;
    return used + written.count;
}

/* Reads the record at a position of a store into a fish, and answers the position of the next. */
static size_t next(const uint32_t *store, size_t words, size_t at, struct fish *fish)
{
    /* How long the sequence is cannot be known before its record is read, so it gets the most that there can be. */
    fish->sequence = buffer_of(SIGXUME_MAX_WORDS);
    sigxume_read_answer read = sigxume_read(store + at, words - at, fish->sequence, SIGXUME_MAX_WORDS);
    check("reading a record", read.refusal);

    /* A header has 16 bits for the number. */
    fish->id = (uint16_t)read.id;
    fish->count = read.count;
    return at + read.used;
}

/* Compares two fish and prints the listing. */
static void compare(const struct fish *first, const struct fish *second, uint32_t minimum)
{
    size_t workspace_len = sigxume_workspace_words(first->count, second->count);
    size_t tiles_len = sigxume_tile_words(first->count, second->count, minimum);
    uint32_t *workspace = buffer_of(workspace_len);
    uint32_t *tiles = buffer_of(tiles_len);

    sigxume_compared answer = sigxume_compare(
        first->sequence, first->count, second->sequence, second->count, minimum, workspace, workspace_len, tiles, tiles_len);
    check("comparing", answer.refusal);

    printf("FISH %u %u\n", (unsigned)first->id, (unsigned)second->id);
    printf("MINIMUM %" PRIu32 "\n", minimum);
    printf("TILES %" PRIu32 "\n", answer.tiles);
    for (size_t i = 0; i < answer.tiles; i++) {
        sigxume_tile tile = sigxume_tile_at(tiles, i);
        printf("%" PRIu32 " %" PRIu32 " %" PRIu32 " %" PRId32 "\n", tile.first, tile.second, tile.length, sigxume_shift(tile));
    }
    printf("COVERED %" PRIu32 " OF %zu %zu\n", answer.covered, first->count, second->count);
    printf("SCORE %" PRIu32 "\n", answer.score);

    free(workspace);
    free(tiles);
}

int main(void)
{
    /* Two records, one after the other as in a file. */
    uint32_t *store = NULL;
    size_t words = 0;
    words = append(&store, words, 12, "caabaad");
    words = append(&store, words, 13, "baadcaaaabaa");

    struct fish first, second;
    size_t at = 0;
    at = next(store, words, at, &first);
    at = next(store, words, at, &second);
    if (at != words) {
        fprintf(stderr, "something follows the second record\n");
        return EXIT_FAILURE;
    }

    compare(&first, &second, 1);

    free(first.sequence);
    free(second.sequence);
    free(store);

    /* A listing that could not be written is no success. */
    return fflush(stdout) == 0 ? EXIT_SUCCESS : EXIT_FAILURE;
}
