/*
 * Sigxume: compares two motif sequences by greedy string tiling (Wise, 1993).
 *
 * The work is done by a core written in Rattle and proved for every input: it answers what the definition of the tiling says, it
 * touches nothing but what it is lent, and it ends. This header only says how to call it. Link with libsigxume.a, which is for
 * Linux on x86-64 and needs nothing but the C library's memset. c/example.c is a whole program; a comparison is
 *
 *     static uint32_t workspace[SIGXUME_MAX_WORKSPACE_WORDS], tiles[SIGXUME_MAX_TILE_WORDS];
 *     sigxume_compared answer = sigxume_compare(
 *         first, n, second, m, minimum, workspace, SIGXUME_MAX_WORKSPACE_WORDS, tiles, SIGXUME_MAX_TILE_WORDS);
 *     if (answer.refusal == SIGXUME_ACCEPTED)
 *         for (uint32_t i = 0; i < answer.tiles; i++)
 *             use(sigxume_tile_at(tiles, i));
 *
 * A word is a uint32_t. Its top two bits are its kind.
 *
 *     kind  word     other bits
 *     0     header   29 to 14 the fish's number, its id; 13 to 0 the count of words between header and trailer, 0 to 2,048
 *     1     call     15 to 0 a motif code, 29 to 16 zero: SIGXUME_CALL(code)
 *     2     no-call  zero: SIGXUME_NO_CALL
 *     3     trailer  29 to 0 the sum, modulo 2^30, of the low 30 bits of the header and of every word of the sequence
 *
 * Sixteen codes are retired, and stand for others:
 *
 *     65,000 to 65,007   11  14  14  27  30  52  52  52
 *     65,008 to 65,015  101 118 240 241 300 512 777 1,024
 *
 * Two words match when both are calls and their codes are equal once retired ones are replaced by what they stand for. A no-call matches
 * nothing, another no-call included. Comparing and hashing replace retired codes by themselves; reading, writing and merging records
 * leave every word as it is.
 *
 * A sequence is 0 to 2,048 words, each a call or the no-call. Positions count from 0. A record is a sequence as it is stored: a
 * header, the sequence, a trailer. In a file each word is four bytes, lowest byte first, so on x86-64 a file's bytes can be read
 * into words as they are, and written from them. Two records of one fish that was typed twice can be merged into one.
 *
 * A tile is a stretch of words of both sequences that match one by one. The tiling always lays the longest that there is on words
 * not yet covered; of equally long ones the one that starts first in the pattern, and then the one that starts first in the text. It
 * ends when there is none of at least the minimum length. The pattern is the shorter sequence, the text the longer. Of two sequences
 * of equal length the pattern is the one with the smaller word, as it is passed and as an unsigned number, at the first position where
 * they differ; so a no-call is greater than every call. Of equal sequences it is the first.
 *
 * So it does not matter which sequence is passed first: exchanging the two exchanges the two starts of each tile and changes nothing
 * else. The order of the tiles, their lengths, their number, covered, score, every word of a cover and what is told of a threshold
 * are the same.
 *
 * Rules that hold for every function:
 *
 * - A slice is a pointer and a length in words. The pointer must be aligned to four bytes and valid for so many words. Where the
 *   length is 0 it is not looked at, so NULL will do.
 * - A slice that is written (its pointer is not to const) must not overlap any other that is passed. What is only read may: a
 *   sequence may be compared with itself.
 * - Nothing else is asked. Any words, lengths and numbers may be passed; what cannot be done is refused.
 * - An answer is a struct whose first number is the refusal's, 0 for none. After a refusal every other number is 0 and everything
 *   lent is as it was. A refusal is given when its cause holds and none that is checked earlier, and at no other time.
 * - Nothing is allocated, no state is kept and errno is not touched, so any thread may call at any time, with buffers of its own.
 * - Every call ends. The fast engine, which also makes a cover and decides about a threshold, takes about 17 KB of stack,
 *   everything else under 1 KB: a thread with 32 KiB can make any call.
 */
#ifndef SIGXUME_H
#define SIGXUME_H

#include <stdbool.h>
#include <stddef.h>
#include <stdint.h>

#ifdef __cplusplus
extern "C" {
#endif

/* The most words of a sequence and of a record, and the most that is ever asked of a workspace and of a tile buffer: buffers of
 * these sizes serve for everything. */
#define SIGXUME_MAX_WORDS 2048
#define SIGXUME_MAX_RECORD_WORDS 2050
#define SIGXUME_MAX_WORKSPACE_WORDS 16384
#define SIGXUME_MAX_TILE_WORDS 6144

/* The greatest minimum and the greatest bucket count; the least is 1 for both. */
#define SIGXUME_MAX_MINIMUM 256
#define SIGXUME_MAX_BUCKETS 1024

/* The greatest threshold, which is the greatest score; the least is 0 for both. */
#define SIGXUME_MAX_THRESHOLD 1000

/* The words of a cover: one for each minimum. */
#define SIGXUME_COVER_WORDS 256

/* Settings of the fast engine that serve well, with sigxume_start below. The answer does not depend on them, only the time. */
#define SIGXUME_MULTIPLIER 257
#define SIGXUME_BUCKETS 1021

/* The call of a code from 0 to 65,535, which is its low 16 bits, and the no-call; a constant code gives a constant. A greater code,
 * below 2^30, gives a word that is refused. */
#define SIGXUME_CALL(code) ((uint32_t)1 << 30 | (uint32_t)(code))
#define SIGXUME_NO_CALL ((uint32_t)2 << 30)

/* The causes of a refusal; there is no other. Below, the names are without SIGXUME_REFUSED_. */
enum sigxume_refusal {
    SIGXUME_ACCEPTED = 0,
    SIGXUME_REFUSED_TOO_LONG = 1,      /* a sequence has more than 2,048 words */
    SIGXUME_REFUSED_UNSOUND = 2,       /* a word of a sequence is neither a call nor the no-call */
    SIGXUME_REFUSED_MINIMUM = 3,       /* the minimum is not 1 to 256 */
    SIGXUME_REFUSED_BUCKETS = 4,       /* the bucket count is not 1 to 1,024 */
    SIGXUME_REFUSED_SEARCH_LENGTH = 5, /* the first search length is below the minimum or above 2,048; or, of the list of
                                          hashes, the window length is not 1 to 2,048 */
    SIGXUME_REFUSED_WORKSPACE = 6,     /* the workspace has fewer than sigxume_workspace_words */
    SIGXUME_REFUSED_TILE_BUFFER = 7,   /* the tile buffer has fewer than sigxume_tile_words */
    SIGXUME_REFUSED_CUT = 8,           /* the record ends before its trailer */
    SIGXUME_REFUSED_HEADER = 9,        /* the first word is no header, or its count exceeds 2,048 */
    SIGXUME_REFUSED_TRAILER = 10,      /* the trailer is not of kind 3 with the right sum */
    SIGXUME_REFUSED_ROOM = 11,         /* the buffer is shorter than what would be written */
    SIGXUME_REFUSED_THRESHOLD = 12,    /* the threshold is above 1,000 */
    SIGXUME_REFUSED_FISH = 13,         /* the two records are of different fish: their ids differ */
    SIGXUME_REFUSED_COUNT = 14         /* the two records have different counts of words */
};

/* The answer of reading: a refusal's number and zeros, or 0 and what was read. */
typedef struct sigxume_read_answer {
    uint32_t refusal;
    uint32_t id;    /* the fish's number, 0 to 65,535 */
    uint32_t count; /* the sequence has so many words, 0 to 2,048 */
    uint32_t used;  /* the record has so many words, count + 2: the next one, where there is one, begins after them */
} sigxume_read_answer;

/* The answer of a call that counts what it wrote: a refusal's number and 0, or 0 and the count. */
typedef struct sigxume_counted {
    uint32_t refusal;
    uint32_t count;
} sigxume_counted;

/* The answer of a comparison: a refusal's number and zeros, or 0 and what was laid. */
typedef struct sigxume_compared {
    uint32_t refusal;
    uint32_t tiles;   /* the number of tiles; each is three words at the start of the tile buffer */
    uint32_t covered; /* the sum of their lengths */
    uint32_t score;   /* 2,000 * covered divided by the sum of both lengths, rounded down: 0 to 1,000; 0 for two empty sequences */
} sigxume_compared;

/* The answer about a threshold: a refusal's number and zeros, or 0 and what was decided. */
typedef struct sigxume_told {
    uint32_t refusal;
    uint32_t reached; /* 1 where the score is at least the threshold, 0 where it is less */
    uint32_t tiles;   /* the number of tiles laid until that was decided */
} sigxume_told;

/* A tile, as sigxume_tile_at takes it from a tile buffer. First and second mean as passed, whichever is the longer. */
typedef struct sigxume_tile {
    uint32_t first;  /* where it starts in the first sequence */
    uint32_t second; /* where it starts in the second */
    uint32_t length; /* its words */
} sigxume_tile;

/*
 * How large a buffer must be, in words. Any arguments may be given: a size that exceeds a size_t is SIZE_MAX. Take a heap buffer
 * from calloc(size, sizeof(uint32_t)), which sees where the bytes would be too many.
 */

/* The words that a comparison of sequences of these lengths asks of its workspace: four for each word of both. */
static inline size_t sigxume_workspace_words(size_t first, size_t second)
{
    size_t most = (size_t)-1;
    size_t sum = first <= most - second ? first + second : most;
    return sum <= most / 4 ? 4 * sum : most;
}

/* The words that it asks of its tile buffer: three for each tile that there can be. For minimum 0, which is refused, this is 0. */
static inline size_t sigxume_tile_words(size_t first, size_t second, uint32_t minimum)
{
    size_t most = (size_t)-1;
    size_t shorter = first < second ? first : second;
    size_t tiles = minimum != 0 ? shorter / minimum : 0;
    return tiles <= most / 3 ? 3 * tiles : most;
}

/* The words of a record whose sequence has so many: a header and a trailer more. */
static inline size_t sigxume_record_words(size_t count)
{
    size_t most = (size_t)-1;
    return count <= most - 2 ? count + 2 : most;
}

/* The positions of a sequence of so many words at which a window fits, so the words that sigxume_hash_list writes. For a window of
 * 0 words, which is refused, this is 0. */
static inline size_t sigxume_hash_words(size_t words, uint32_t window)
{
    return window != 0 && window <= words ? words - window + 1 : 0;
}

/* The first search length that serves well at a minimum: 20, or the minimum if larger. */
static inline uint32_t sigxume_start(uint32_t minimum)
{
    return minimum > 20 ? minimum : 20;
}

/* The tile of that index, from 0, in a tile buffer; the index must be below the answer's number of tiles. */
static inline sigxume_tile sigxume_tile_at(const uint32_t *tiles, size_t index)
{
    sigxume_tile tile;
    tile.first = tiles[3 * index];
    tile.second = tiles[3 * index + 1];
    tile.length = tiles[3 * index + 2];
    return tile;
}

/* How much further on a tile lies in the second sequence: from -2,047 to 2,047, where it was laid by a comparison. */
static inline int32_t sigxume_shift(sigxume_tile tile)
{
    return (int32_t)(tile.second - tile.first);
}

/* The score of a covered count, words being the sum of both lengths: 2,000 * covered divided by words, rounded down, and 0 for 0
 * words. A comparison answers its score; this is for a count that comes without one, as those of a cover do. It is not proved as
 * the core's scores are, but tested against them. Any numbers may be given: a quotient that exceeds a uint32_t is the greatest. */
static inline uint32_t sigxume_score(uint32_t covered, size_t words)
{
    uint32_t most = (uint32_t)-1;
    uint64_t score = words != 0 ? (uint64_t)2000 * covered / words : 0;
    return score <= most ? (uint32_t)score : most;
}

/* A refusal's cause in words. */
static inline const char *sigxume_reason(uint32_t refusal)
{
    switch (refusal) {
    case SIGXUME_ACCEPTED: return "nothing was refused";
    case SIGXUME_REFUSED_TOO_LONG: return "a sequence has more than 2,048 words";
    case SIGXUME_REFUSED_UNSOUND: return "a word is neither a call nor the no-call";
    case SIGXUME_REFUSED_MINIMUM: return "the minimum is not 1 to 256";
    case SIGXUME_REFUSED_BUCKETS: return "the bucket count is not 1 to 1,024";
    case SIGXUME_REFUSED_SEARCH_LENGTH:
        return "the first search length is below the minimum or above 2,048, or the window length is not 1 to 2,048";
    case SIGXUME_REFUSED_WORKSPACE: return "the workspace is too short";
    case SIGXUME_REFUSED_TILE_BUFFER: return "the tile buffer is too short";
    case SIGXUME_REFUSED_CUT: return "the record ends before its trailer";
    case SIGXUME_REFUSED_HEADER: return "the first word is no header, or its count exceeds 2,048";
    case SIGXUME_REFUSED_TRAILER: return "the trailer is not of kind 3 with the right sum";
    case SIGXUME_REFUSED_ROOM: return "the buffer is shorter than what would be written";
    case SIGXUME_REFUSED_THRESHOLD: return "the threshold is above 1,000";
    case SIGXUME_REFUSED_FISH: return "the two records are of different fish";
    case SIGXUME_REFUSED_COUNT: return "the two records have different counts of words";
    default: return "no refusal has this number";
    }
}

/* The word as it is compared and hashed: a call of a retired code becomes a call of the code that it stands for, and any other word
 * is itself, whatever its bits. Replacing twice is replacing once. No other function wants its words replaced beforehand; this is for
 * programs that compare or count words themselves. */
uint32_t sigxume_replaced(uint32_t word);

/* Whether two words match: both are calls, and their codes are equal once retired ones are replaced. Any two words may be given; a
 * call matches itself, and a word that is no call matches nothing. It is decided without a branch, by the same few instructions for
 * all words. */
bool sigxume_match(uint32_t a, uint32_t b);

/* Whether each word is a call or the no-call. There may be any number of them; of none it is true. */
bool sigxume_sound(const uint32_t *words, size_t words_len);

/*
 * Reads the record that src starts with, and copies its sequence to the start of buffer, which is long enough with
 * SIGXUME_MAX_WORDS words. What follows the record is not looked at, and the rest of the buffer keeps its values.
 *
 * Refused, in this order: CUT (8) where src is empty, HEADER (9), CUT (8), UNSOUND (2), TRAILER (10), ROOM (11). The buffer is
 * then as it was.
 */
sigxume_read_answer sigxume_read(const uint32_t *src, size_t src_len, uint32_t *buffer, size_t buffer_len);

/*
 * Writes the record of a fish's number and a sequence to the start of buffer, which must have sigxume_record_words, and answers
 * how many words that were. The rest of the buffer keeps its values.
 *
 * Refused, in this order: TOO_LONG (1), UNSOUND (2), ROOM (11). The buffer is then as it was. Mind that C cuts a number that is
 * passed as id to its low 16 bits and says nothing.
 */
sigxume_counted sigxume_write(
    uint16_t id, const uint32_t *sequence, size_t sequence_len, uint32_t *buffer, size_t buffer_len);

/*
 * Merges two records of one fish, those that first and second start with, into one of the same id and count: the record goes to the
 * start of buffer, which must have sigxume_record_words of that count, and the answer says how many words that were. What follows
 * either record is not looked at, and the rest of the buffer keeps its values.
 *
 * At each position of the sequence the word is
 *
 *     the first's, as it stands, where the two match: of a retired code and another spelling of it the first's is kept;
 *     the other's, where one is the no-call; so the no-call, where both are;
 *     the no-call, where both are calls that do not match.
 *
 * The result is a record with its own trailer, which reads without refusal. A record merged with itself is given back. Exchanging the
 * two changes no word but for its spelling, where one or both have a retired code. Three records may come out otherwise in another
 * order: where a and b are calls that do not match, a with b, then with b again, is b; but b with b, then a with that, is the no-call.
 *
 * Refused, in this order: what reading the first refuses, CUT (8) where it is empty, HEADER (9), CUT (8), UNSOUND (2), TRAILER (10);
 * the same of the second; then FISH (13), COUNT (14), ROOM (11). The buffer is then as it was.
 */
sigxume_counted sigxume_merge(
    const uint32_t *first, size_t first_len, const uint32_t *second, size_t second_len, uint32_t *buffer, size_t buffer_len);

/*
 * Fills the start of buffer, which must have sigxume_hash_words, with the hash of each window of so many words, and answers how
 * many there are; none where the window is longer than the sequence. The rest of the buffer keeps its values. The hash of
 * w0 .. w(s-1) is w0 * B^(s-1) + .. + w(s-1) modulo 2^32, over whole words, each replaced by sigxume_replaced, B being the multiplier
 * and B^0 = 1 even for B = 0.
 *
 * Refused, in this order: TOO_LONG (1), UNSOUND (2), SEARCH_LENGTH (5), ROOM (11). The buffer is then as it was.
 */
sigxume_counted sigxume_hash_list(
    const uint32_t *words, size_t words_len, uint32_t multiplier, uint32_t window, uint32_t *buffer, size_t buffer_len);

/*
 * Compares two sequences by the fast engine, Running Karp-Rabin greedy string tiling. The tiles, each of at least minimum words,
 * go to the start of tiles in the order laid, so from the longest to the shortest; the other words of tiles keep their values. The
 * workspace may hold anything, and all its workspace_len words are zero afterwards. The multiplier may be any number; start is
 * the first search length: with windows about so long the search begins where those of the minimum length are too much alike. Of
 * multiplier, buckets and start only the time depends.
 *
 * Refused, in this order: TOO_LONG (1), UNSOUND (2), MINIMUM (3), BUCKETS (4), SEARCH_LENGTH (5), WORKSPACE (6),
 * TILE_BUFFER (7). Workspace and tiles are then as they were.
 */
sigxume_compared sigxume_compare_fast(
    const uint32_t *first, size_t first_len, const uint32_t *second, size_t second_len, uint32_t minimum, uint32_t multiplier,
    uint32_t buckets, uint32_t start, uint32_t *workspace, size_t workspace_len, uint32_t *tiles, size_t tiles_len);

/*
 * The same by the plain engine, which uses no hash and is slower but for short sequences. It is proved to give the same answer and
 * the same tiles. Refused as there, without BUCKETS (4) and SEARCH_LENGTH (5).
 */
sigxume_compared sigxume_compare_plain(
    const uint32_t *first, size_t first_len, const uint32_t *second, size_t second_len, uint32_t minimum, uint32_t *workspace,
    size_t workspace_len, uint32_t *tiles, size_t tiles_len);

/*
 * Compares two sequences once, by the fast engine at minimum 1, and fills the first SIGXUME_COVER_WORDS words of cover: word k is
 * the covered count at minimum k + 1, zeros included, which is what sigxume_compare_fast would answer there. So the words never
 * rise, and the first is the answer's covered. The other words of cover keep their values. Answer, tiles and workspace are those of
 * sigxume_compare_fast at minimum 1: the tiles at a greater minimum are the first of these, down to the last that is long enough.
 *
 * Refused, in this order: TOO_LONG (1), UNSOUND (2), BUCKETS (4), SEARCH_LENGTH (5), WORKSPACE (6), TILE_BUFFER (7), all as at
 * minimum 1, and then ROOM (11) where cover has fewer than SIGXUME_COVER_WORDS. Workspace, tiles and cover are then as they were.
 */
sigxume_compared sigxume_cover_fast(
    const uint32_t *first, size_t first_len, const uint32_t *second, size_t second_len, uint32_t multiplier, uint32_t buckets,
    uint32_t start, uint32_t *workspace, size_t workspace_len, uint32_t *tiles, size_t tiles_len, uint32_t *cover,
    size_t cover_len);

/*
 * Says whether two sequences score at least threshold, from 0 to SIGXUME_MAX_THRESHOLD: yes exactly where the score that
 * sigxume_compare_fast answers is at least that. The tiles are laid in its order, but no more of them than it takes to decide; they
 * are counted and not kept, so no tile buffer is lent.
 *
 * It is decided after the fewest tiles, 0 included, whose covered words alone score at least threshold, which is a yes; or score
 * less even with every free stretch of the pattern added that has at least minimum words, which is a no. Where neither ever holds,
 * all tiles are laid, and it is a no. A word is free until a tile covers it, so a no-call always is, and ends no stretch. The
 * threshold 0 is reached with 0 tiles by any two sequences, two empty ones included. The workspace is that of sigxume_compare_fast,
 * and left as there; of multiplier, buckets and start only the time depends.
 *
 * Refused, in this order: TOO_LONG (1), UNSOUND (2), MINIMUM (3), BUCKETS (4), SEARCH_LENGTH (5), WORKSPACE (6),
 * THRESHOLD (12). The workspace is then as it was.
 */
sigxume_told sigxume_at_least_fast(
    const uint32_t *first, size_t first_len, const uint32_t *second, size_t second_len, uint32_t minimum, uint32_t threshold,
    uint32_t multiplier, uint32_t buckets, uint32_t start, uint32_t *workspace, size_t workspace_len);

/* sigxume_compare_fast with the settings that serve well at this minimum, so that neither BUCKETS (4) nor SEARCH_LENGTH (5) is
 * refused. */
static inline sigxume_compared sigxume_compare(
    const uint32_t *first, size_t first_len, const uint32_t *second, size_t second_len, uint32_t minimum, uint32_t *workspace,
    size_t workspace_len, uint32_t *tiles, size_t tiles_len)
{
    return sigxume_compare_fast(
        first, first_len, second, second_len, minimum, SIGXUME_MULTIPLIER, SIGXUME_BUCKETS, sigxume_start(minimum), workspace,
        workspace_len, tiles, tiles_len);
}

/* sigxume_cover_fast with the settings that serve well, so that neither BUCKETS (4) nor SEARCH_LENGTH (5) is refused. */
static inline sigxume_compared sigxume_cover(
    const uint32_t *first, size_t first_len, const uint32_t *second, size_t second_len, uint32_t *workspace, size_t workspace_len,
    uint32_t *tiles, size_t tiles_len, uint32_t *cover, size_t cover_len)
{
    return sigxume_cover_fast(
        first, first_len, second, second_len, SIGXUME_MULTIPLIER, SIGXUME_BUCKETS, sigxume_start(1), workspace, workspace_len,
        tiles, tiles_len, cover, cover_len);
}

/* sigxume_at_least_fast with the settings that serve well at this minimum, so that neither BUCKETS (4) nor SEARCH_LENGTH (5) is
 * refused. */
static inline sigxume_told sigxume_at_least(
    const uint32_t *first, size_t first_len, const uint32_t *second, size_t second_len, uint32_t minimum, uint32_t threshold,
    uint32_t *workspace, size_t workspace_len)
{
    return sigxume_at_least_fast(
        first, first_len, second, second_len, minimum, threshold, SIGXUME_MULTIPLIER, SIGXUME_BUCKETS, sigxume_start(minimum),
        workspace, workspace_len);
}

#ifdef __cplusplus
}
#endif

#endif
