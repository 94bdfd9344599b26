/*
 * A libFuzzer program over sigxume.h: it calls the core with whatever the fuzzer thinks of, and stops where an answer, a buffer or
 * an access is not as the header says. `make fuzz` builds and runs it.
 *
 * An input is a plan of 28 bytes and then words. Every call is made twice, with each slice against an inaccessible page once at its
 * end and once at its start, since the archive is not instrumented: what AddressSanitizer cannot see the page stops. Lent buffers
 * hold other words each time, and the answers must be the same.
 */
#define _DEFAULT_SOURCE /* MAP_ANONYMOUS */
#include "sigxume.h"

#include <stdio.h>
#include <stdlib.h>
#include <string.h>
#include <sys/mman.h>
#include <unistd.h>

#define MUST(holds)                                                                                                              \
    do {                                                                                                                         \
        if (!(holds))                                                                                                            \
            fail(#holds, __LINE__);                                                                                              \
    } while (0)

static void fail(const char *what, int line)
{
    fprintf(stderr, "fuzz.c:%d: does not hold: %s\n", line, what);
    abort();
}

/* What an input asks for. */
enum { WORDS, READ, READ_ALL, WRITE, HASHES, COMPARE, PAIR, COVER, AT_LEAST, MERGE, KINDS };

enum {
    PLAN = 28,
    MOST = 5000,          /* words of an input that are looked at */
    LOT = 8 * MOST + 256, /* words of the largest slice, the workspace of a sequence with itself, and its guard */
    GUARD = 16,
    SMALL = 4096,    /* the product of lengths up to which the tiling is made here too */
    MEDIUM = 1 << 16 /* and up to which free runs are looked for */
};

struct plan {
    unsigned kind;
    unsigned alphabet; /* calls have so many codes, and all words are sound; 0: words as they are */
    bool retired;      /* of that many, those above 16 are the retired codes and the codes that these stand for */
    bool bytes;        /* a word is given by one byte */
    bool itself;       /* the first sequence is compared with itself */
    bool halves;       /* both sequences are half of the words */
    bool null;         /* an empty slice has the null pointer */
    bool in_range;     /* settings are brought into their range */
    unsigned room[3];  /* of workspace, tile buffer and buffer: as much as is asked, one short, one more, more */
    size_t cut;        /* where the second sequence begins */
    uint16_t id;
    uint32_t minimum, multiplier, buckets, start, threshold;
};

/* What the fuzzer is told of the answers: it keeps inputs that show something new. */
enum {
    SAW_CAUSES,
    SAW_REFUSAL,
    SAW_TILES,
    SAW_LONGEST,
    SAW_SCORE,
    SAW_COVERED,
    SAW_READ,
    SAW_ALL,
    SAW_HASHES,
    SAW_CURVE,
    SAW_DECIDED,
    SAW_MERGED,
    SIGHTS
};

/* Counters for each, so many times 32: each kind of input has up to eight causes of a refusal. */
enum { ROWS = 8 * KINDS };

__attribute__((section("__libfuzzer_extra_counters"))) static uint8_t counters[SIGHTS * ROWS * 32];

static void saw(size_t what, size_t a, size_t b)
{
    counters[(what * ROWS + (a < ROWS ? a : ROWS - 1)) * 32 + (b < 32 ? b : 31)] = 1;
}

static size_t bits(size_t n)
{
    size_t count = 0;
    for (; n != 0; n /= 2)
        count++;
    return count;
}

/* The side of a slice on which its inaccessible page lies; the other one has guard words. */
static enum { AFTER, BEFORE } side;

/* A slice that is passed, and what it held before the call. */
struct slice {
    uint32_t *at;
    size_t len;
    uint32_t *held;
};

/* Lots of writable words between inaccessible pages, one for each slice of a call. */
enum { FIRST, SECOND, WORKSPACE, TILES, CURVE, LOTS };
static struct {
    uint32_t *low, *high;
    uint32_t held[LOT];
} lots[LOTS];

static void make_lots(void)
{
    size_t page = (size_t)sysconf(_SC_PAGESIZE);
    size_t inner = (LOT * sizeof(uint32_t) + page - 1) / page * page;
    for (int i = 0; i < LOTS; i++) {
        unsigned char *all = mmap(NULL, inner + 2 * page, PROT_NONE, MAP_PRIVATE | MAP_ANONYMOUS, -1, 0);
        MUST(all != MAP_FAILED && mprotect(all + page, inner, PROT_READ | PROT_WRITE) == 0);
        lots[i].low = (uint32_t *)(void *)(all + page);
        lots[i].high = (uint32_t *)(void *)(all + page + inner);
    }
}

static uint32_t filler(size_t i)
{
    return (uint32_t)(i + 1) * 2654435761u ^ (side == AFTER ? 0x5bd1e995u : 0xa0761d64u);
}

static uint32_t *guard_of(struct slice s)
{
    return side == AFTER ? s.at - GUARD : s.at + s.len;
}

/* A slice of so many words in a lot: a copy of what is given, or of fillers. */
static struct slice lend(int lot, const uint32_t *words, size_t len, bool null)
{
    struct slice s = {side == AFTER ? lots[lot].high - len : lots[lot].low, len, lots[lot].held};
    MUST(len + GUARD <= LOT);
    for (size_t i = 0; i < len; i++)
        s.held[i] = words != NULL ? words[i] : filler(i);
    memcpy(s.at, s.held, len * sizeof *s.at);
    for (size_t i = 0; i < GUARD; i++)
        guard_of(s)[i] = filler(i + LOT);
    if (null && len == 0)
        s.at = NULL;
    return s;
}

/* From a word on, a slice holds what it held, and its guard is whole. */
static void must_keep(struct slice s, size_t from)
{
    MUST(from <= s.len);
    if (s.at == NULL)
        return;
    MUST(memcmp(s.at + from, s.held + from, (s.len - from) * sizeof *s.at) == 0);
    for (size_t i = 0; i < GUARD; i++)
        MUST(guard_of(s)[i] == filler(i + LOT));
}

/* The meanings, apart from the core. */

static bool is_call(uint32_t w)
{
    return w >> 30 == 1 && (w >> 16 & 0x3fff) == 0;
}

static bool sound(const uint32_t *words, size_t len)
{
    for (size_t i = 0; i < len; i++)
        if (!is_call(words[i]) && words[i] != 0x80000000u)
            return false;
    return true;
}

/* What the codes from 65,000 on stand for. */
static const uint16_t replacements[16] = {11, 14, 14, 27, 30, 52, 52, 52, 101, 118, 240, 241, 300, 512, 777, 1024};

static uint32_t replaced(uint32_t word)
{
    uint32_t code = word & 0xffff;
    return is_call(word) && code >= 65000 && code < 65016 ? SIGXUME_CALL(replacements[code - 65000]) : word;
}

static bool match(uint32_t a, uint32_t b)
{
    return is_call(a) && is_call(b) && replaced(a) == replaced(b);
}

static uint32_t trailer(uint32_t header, const uint32_t *sequence, size_t count)
{
    uint64_t sum = header & 0x3fffffff;
    for (size_t i = 0; i < count; i++)
        sum += sequence[i] & 0x3fffffff;
    return 3u << 30 | (uint32_t)(sum % (1u << 30));
}

/* A refusal's number, and whether its cause holds. */
struct cause {
    uint32_t number;
    bool holds;
};

/* The number of the first cause that holds, 0 for none. The fuzzer is told which hold together, since only that tells the order. */
static uint32_t first_of(const struct plan *plan, const struct cause *causes, size_t len)
{
    uint32_t number = 0;
    for (size_t i = len; i-- > 0;)
        if (causes[i].holds) {
            number = causes[i].number;
            for (size_t j = i; j < len; j++)
                if (causes[j].holds)
                    saw(SAW_CAUSES, plan->kind * 8 + i, j);
        }
    return number;
}

#define FIRST_OF(plan, causes) first_of(plan, causes, sizeof(causes) / sizeof *(causes))

static uint32_t read_refusal(const struct plan *plan, const uint32_t *src, size_t len, size_t room)
{
    if (len == 0)
        return 8;
    size_t count = src[0] % (1u << 14);
    if (src[0] >> 30 != 0 || count > 2048)
        return 9;
    if (len < count + 2)
        return 8;
    struct cause causes[] = {
        {2, !sound(src + 1, count)},
        {10, src[count + 1] != trailer(src[0], src + 1, count)},
        {11, room < count},
    };
    return FIRST_OF(plan, causes);
}

static uint32_t write_refusal(const struct plan *plan, const uint32_t *sequence, size_t len, size_t room)
{
    struct cause causes[] = {
        {1, len > 2048},
        {2, !sound(sequence, len)},
        {11, room < len + 2},
    };
    return FIRST_OF(plan, causes);
}

static uint32_t hash_refusal(const struct plan *plan, const uint32_t *words, size_t len, uint32_t window, size_t room)
{
    struct cause causes[] = {
        {1, len > 2048},
        {2, !sound(words, len)},
        {5, window < 1 || window > 2048},
        {11, window >= 1 && window <= len && room < len - window + 1},
    };
    return FIRST_OF(plan, causes);
}

static uint32_t compare_refusal(
    const struct plan *plan, bool fast, const uint32_t *first, size_t n, const uint32_t *second, size_t m, size_t workspace,
    size_t tiles)
{
    struct cause causes[] = {
        {1, n > 2048 || m > 2048},
        {2, !sound(first, n) || !sound(second, m)},
        {3, plan->minimum < 1 || plan->minimum > 256},
        {4, fast && (plan->buckets < 1 || plan->buckets > 1024)},
        {5, fast && (plan->start < plan->minimum || plan->start > 2048)},
        {6, workspace < 4 * (n + m)},
        {7, plan->minimum >= 1 && tiles < 3 * ((n < m ? n : m) / plan->minimum)},
    };
    return FIRST_OF(plan, causes);
}

static uint32_t cover_refusal(
    const struct plan *plan, const uint32_t *first, size_t n, const uint32_t *second, size_t m, size_t workspace, size_t tiles,
    size_t cover)
{
    struct cause causes[] = {
        {1, n > 2048 || m > 2048},
        {2, !sound(first, n) || !sound(second, m)},
        {4, plan->buckets < 1 || plan->buckets > 1024},
        {5, plan->start < 1 || plan->start > 2048},
        {6, workspace < 4 * (n + m)},
        {7, tiles < 3 * (n < m ? n : m)},
        {11, cover < 256},
    };
    return FIRST_OF(plan, causes);
}

static uint32_t threshold_refusal(
    const struct plan *plan, const uint32_t *first, size_t n, const uint32_t *second, size_t m, size_t workspace)
{
    struct cause causes[] = {
        {1, n > 2048 || m > 2048},
        {2, !sound(first, n) || !sound(second, m)},
        {3, plan->minimum < 1 || plan->minimum > 256},
        {4, plan->buckets < 1 || plan->buckets > 1024},
        {5, plan->start < plan->minimum || plan->start > 2048},
        {6, workspace < 4 * (n + m)},
        {12, plan->threshold > 1000},
    };
    return FIRST_OF(plan, causes);
}

/* Each record's own causes are those of reading it into a buffer that is always long enough. */
static uint32_t merge_refusal(
    const struct plan *plan, const uint32_t *first, size_t n, const uint32_t *second, size_t m, size_t room)
{
    uint32_t of_first = read_refusal(plan, first, n, (size_t)-1), of_second = read_refusal(plan, second, m, (size_t)-1);
    uint32_t differ = n != 0 && m != 0 ? first[0] ^ second[0] : 0;
    struct cause causes[] = {
        {of_first, of_first != 0},
        {of_second, of_second != 0},
        {13, differ >> 14 != 0},
        {14, differ % (1u << 14) != 0},
        {11, n != 0 && room < first[0] % (1u << 14) + 2},
    };
    return FIRST_OF(plan, causes);
}

static size_t room_of(size_t asked, unsigned choice)
{
    switch (choice % 4) {
    case 0: return asked;
    case 1: return asked != 0 ? asked - 1 : 0;
    case 2: return asked + 1;
    default: return asked + 37;
    }
}

/* The score of any numbers: score * words is at most 2,000 * covered, and with one score more it would not be. */
static void try_score(uint32_t covered, size_t words)
{
    uint64_t whole = (uint64_t)2000 * covered, score = sigxume_score(covered, words);
    if (words == 0)
        MUST(score == 0);
    else if (score == UINT32_MAX)
        MUST(words <= whole / UINT32_MAX);
    else
        MUST(score <= whole / words && whole - score * words < words);
}

/* Words: replacement, match and soundness, and the score of any numbers. */
static void try_words(const struct plan *plan, const uint32_t *words, size_t len)
{
    struct slice s = lend(FIRST, words, len, plan->null);
    MUST(sigxume_sound(s.at, s.len) == sound(words, len));
    must_keep(s, 0);
    for (size_t i = 0; i < len; i++) {
        uint32_t next = words[(i + 1) % len];
        MUST(sigxume_match(words[i], words[i]) == is_call(words[i]));
        MUST(sigxume_match(words[i], next) == match(words[i], next));
        MUST(sigxume_match(words[i], words[i] ^ plan->multiplier) == match(words[i], words[i] ^ plan->multiplier));
        MUST(sigxume_replaced(words[i]) == replaced(words[i]));
    }
    try_score(plan->multiplier, 0);
    try_score(plan->multiplier, (size_t)plan->buckets << plan->start % 33);
    try_score(plan->multiplier % 2049, plan->buckets % 4097);
}

/* Writes a record that must be the given one. */
static void must_write(uint32_t id, const uint32_t *sequence, size_t count, const uint32_t *record, bool null)
{
    struct slice s = lend(FIRST, sequence, count, null);
    struct slice b = lend(SECOND, NULL, count + 2, null);
    sigxume_counted written = sigxume_write((uint16_t)id, s.at, s.len, b.at, b.len);
    MUST(written.refusal == 0 && written.count == count + 2);
    must_keep(s, 0);
    must_keep(b, b.len);
    MUST(memcmp(b.at, record, b.len * sizeof *b.at) == 0);
}

/* Reads the record that words start with into a buffer of so many words, and writes it back. The answer is checked; where it is
 * accepted the sequence is at words + 1. */
static sigxume_read_answer try_read(const struct plan *plan, const uint32_t *words, size_t len, size_t room)
{
    struct slice s = lend(FIRST, words, len, plan->null);
    struct slice b = lend(SECOND, NULL, room, plan->null);
    sigxume_read_answer read = sigxume_read(s.at, s.len, b.at, b.len);
    MUST(read.refusal == read_refusal(plan, words, len, room));
    must_keep(s, 0);
    saw(SAW_REFUSAL, plan->kind, read.refusal);
    saw(SAW_READ, bits(len), read.refusal);
    if (read.refusal != 0) {
        MUST(read.id == 0 && read.count == 0 && read.used == 0);
        must_keep(b, 0);
        return read;
    }
    MUST(read.id == words[0] >> 14 && read.count == words[0] % (1u << 14) && read.used == read.count + 2);
    MUST(read.used <= len);
    must_keep(b, read.count);
    if (read.count != 0)
        MUST(memcmp(b.at, words + 1, read.count * sizeof *words) == 0);
    saw(SAW_READ, 32 + bits(read.count), bits(len - read.used));
    must_write(read.id, words + 1, read.count, words, plan->null);
    return read;
}

static void try_one_read(const struct plan *plan, const uint32_t *words, size_t len)
{
    size_t count = len != 0 ? words[0] % (1u << 14) : 0;
    try_read(plan, words, len, room_of(count < 4096 ? count : 4096, plan->room[2]));
}

/* Records that follow one another: reading ends, and never goes past the end. */
static void try_read_all(const struct plan *plan, const uint32_t *words, size_t len)
{
    size_t at = 0, records = 0;
    uint32_t refusal = 0;
    while (at < len && refusal == 0) {
        sigxume_read_answer read = try_read(plan, words + at, len - at, 2048);
        refusal = read.refusal;
        at += read.used;
        records += refusal == 0;
    }
    MUST(at <= len && 2 * records <= at);
    saw(SAW_ALL, records, refusal);
}

/* Writes a record and reads it back. */
static void try_write(const struct plan *plan, const uint32_t *words, size_t len)
{
    struct slice s = lend(FIRST, words, len, plan->null);
    struct slice b = lend(SECOND, NULL, room_of(len + 2, plan->room[2]), plan->null);
    sigxume_counted written = sigxume_write(plan->id, s.at, s.len, b.at, b.len);
    MUST(written.refusal == write_refusal(plan, words, len, b.len));
    must_keep(s, 0);
    saw(SAW_REFUSAL, plan->kind, written.refusal);
    if (written.refusal != 0) {
        MUST(written.count == 0);
        must_keep(b, 0);
        return;
    }
    MUST(written.count == len + 2);
    must_keep(b, written.count);

    static uint32_t record[MOST + 2];
    memcpy(record, b.at, written.count * sizeof *record);
    MUST(record[0] >> 14 == plan->id && record[0] % (1u << 14) == len);
    MUST(len == 0 || memcmp(record + 1, words, len * sizeof *words) == 0);
    sigxume_read_answer read = try_read(plan, record, written.count, len);
    MUST(read.refusal == 0 && read.id == plan->id && read.count == len);
}

static uint32_t hash_of(const uint32_t *window, size_t length, uint32_t multiplier)
{
    uint32_t sum = 0, power = 1;
    for (size_t i = length; i-- > 0;) {
        sum += replaced(window[i]) * power;
        power *= multiplier;
    }
    return sum;
}

static void try_hashes(const struct plan *plan, const uint32_t *words, size_t len)
{
    uint32_t window = plan->minimum;
    size_t fits = window != 0 && window <= len ? len - window + 1 : 0;
    struct slice s = lend(FIRST, words, len, plan->null);
    struct slice b = lend(SECOND, NULL, room_of(fits, plan->room[2]), plan->null);
    sigxume_counted hashes = sigxume_hash_list(s.at, s.len, plan->multiplier, window, b.at, b.len);
    MUST(sigxume_hash_words(len, window) == fits);
    MUST(hashes.refusal == hash_refusal(plan, words, len, window, b.len));
    must_keep(s, 0);
    saw(SAW_REFUSAL, plan->kind, hashes.refusal);
    if (hashes.refusal != 0) {
        MUST(hashes.count == 0);
        must_keep(b, 0);
        return;
    }
    MUST(hashes.count == fits);
    must_keep(b, fits);
    saw(SAW_HASHES, bits(window), bits(fits));
    /* All of them where the work is small, else the first, the last and some between. */
    size_t step = fits * window <= MEDIUM ? 1 : fits / 8 + 1;
    for (size_t i = 0; i < fits; i += step)
        MUST(b.at[i] == hash_of(words + i, window, plan->multiplier));
    MUST(fits == 0 || b.at[fits - 1] == hash_of(words + fits - 1, window, plan->multiplier));
}

/* Whether the first sequence is the pattern: the shorter one is, and of equal lengths the one with the smaller word where they
 * first differ. */
static bool first_is_pattern(const uint32_t *first, size_t n, const uint32_t *second, size_t m)
{
    for (size_t i = 0; n == m && i < n; i++)
        if (first[i] != second[i])
            return first[i] < second[i];
    return n <= m;
}

/* The tiling as it is defined, by looking at every run again for each tile. */
static void must_be_the_tiling(
    const uint32_t *first, size_t n, const uint32_t *second, size_t m, uint32_t minimum, const uint32_t *tiles, size_t count)
{
    static bool marked[2][SMALL];
    static size_t run[SMALL + 1];
    bool straight = first_is_pattern(first, n, second, m);
    const uint32_t *pattern = straight ? first : second, *text = straight ? second : first;
    size_t rows = straight ? n : m, columns = straight ? m : n;
    memset(marked[0], 0, rows);
    memset(marked[1], 0, columns);
    for (size_t laid = 0;; laid++) {
        size_t p = 0, t = 0, length = 0;
        memset(run, 0, (columns + 1) * sizeof *run);
        /* From the last row up, run[j] is the run at (i, j): until it is set, run[j + 1] is that of the row below. Of equal runs
         * the one in the upper row is taken, and in a row the first. */
        for (size_t i = rows; i-- > 0;)
            for (size_t j = 0; j < columns; j++) {
                run[j] = match(pattern[i], text[j]) && !marked[0][i] && !marked[1][j] ? run[j + 1] + 1 : 0;
                if (run[j] > length || (run[j] == length && length != 0 && i < p)) {
                    length = run[j];
                    p = i;
                    t = j;
                }
            }
        if (length < minimum) {
            MUST(laid == count);
            return;
        }
        MUST(laid < count);
        MUST(tiles[3 * laid] == (straight ? p : t));
        MUST(tiles[3 * laid + 1] == (straight ? t : p));
        MUST(tiles[3 * laid + 2] == length);
        memset(marked[0] + p, 1, length);
        memset(marked[1] + t, 1, length);
    }
}

/* What holds of an accepted comparison. */
static void must_be_tiled(
    const uint32_t *first, size_t n, const uint32_t *second, size_t m, uint32_t minimum, sigxume_compared answer,
    const uint32_t *tiles)
{
    static bool marked[2][2048];
    memset(marked[0], 0, n);
    memset(marked[1], 0, m);
    bool equal = n == m && memcmp(first, second, n * sizeof *first) == 0;
    uint32_t covered = 0, last = 2048;
    for (size_t i = 0; i < answer.tiles; i++) {
        sigxume_tile tile = sigxume_tile_at(tiles, i);
        MUST(tile.length >= minimum && tile.length <= last);
        MUST(tile.first <= n && tile.length <= n - tile.first);
        MUST(tile.second <= m && tile.length <= m - tile.second);
        MUST(!equal || tile.first == tile.second);
        for (size_t k = 0; k < tile.length; k++) {
            MUST(match(first[tile.first + k], second[tile.second + k]));
            MUST(!marked[0][tile.first + k] && !marked[1][tile.second + k]);
            marked[0][tile.first + k] = marked[1][tile.second + k] = true;
        }
        MUST(sigxume_shift(tile) == (int64_t)tile.second - (int64_t)tile.first);
        covered += tile.length;
        last = tile.length;
        if (i == 0)
            saw(SAW_LONGEST, bits(minimum), bits(tile.length));
    }
    MUST(answer.covered == covered);
    MUST(answer.score == (n + m != 0 ? 2000 * covered / (n + m) : 0));
    saw(SAW_TILES, bits(n) * 4 + bits(minimum) / 3, bits(answer.tiles));
    saw(SAW_COVERED, bits(m), bits(covered));
    saw(SAW_SCORE, answer.score / 16, bits(answer.tiles));

    if (minimum == 1) {
        /* Every call that can be covered is. */
        static uint32_t calls[1 << 16];
        uint32_t both = 0;
        for (size_t i = 0; i < n; i++)
            calls[replaced(first[i]) & 0xffff] += is_call(first[i]);
        for (size_t j = 0; j < m; j++)
            if (is_call(second[j]) && calls[replaced(second[j]) & 0xffff] != 0) {
                calls[replaced(second[j]) & 0xffff]--;
                both++;
            }
        for (size_t i = 0; i < n; i++)
            calls[replaced(first[i]) & 0xffff] = 0;
        MUST(covered == both);
    }
    if (n * m <= MEDIUM) {
        /* No free matching run of the minimum length is left: run[j] is how many words match up to (i, j). */
        static uint32_t run[2048 + 1];
        memset(run, 0, (m + 1) * sizeof *run);
        for (size_t i = 0; i < n; i++)
            for (size_t j = m; j > 0; j--) {
                bool free = !marked[0][i] && !marked[1][j - 1];
                run[j] = free && match(first[i], second[j - 1]) ? run[j - 1] + 1 : 0;
                MUST(run[j] < minimum);
            }
    }
    if (n * m <= SMALL)
        must_be_the_tiling(first, n, second, m, minimum, tiles, answer.tiles);
}

/* A workspace after a call that was accepted. */
static void must_be_zero(struct slice w)
{
    for (size_t i = 0; i < w.len; i++)
        MUST(w.at[i] == 0);
    must_keep(w, w.len);
}

/* What is lent for a comparison: both sequences, workspace and tile buffer. */
struct lent {
    struct slice a, b, w, t;
};

static struct lent lend_pair(
    const struct plan *plan, const uint32_t *first, size_t n, const uint32_t *second, size_t m, uint32_t minimum)
{
    struct lent s;
    s.a = lend(FIRST, first, n, plan->null);
    s.b = first == second && n == m ? s.a : lend(SECOND, second, m, plan->null);
    s.w = lend(WORKSPACE, NULL, room_of(sigxume_workspace_words(n, m), plan->room[0]), plan->null);
    s.t = lend(TILES, NULL, room_of(sigxume_tile_words(n, m, minimum), plan->room[1]), plan->null);
    return s;
}

/* What was lent is as the answer says. The tiles are copied to laid. */
static void must_leave(struct lent s, sigxume_compared answer, uint32_t *laid)
{
    must_keep(s.a, 0);
    must_keep(s.b, 0);
    if (answer.refusal != 0) {
        MUST(answer.tiles == 0 && answer.covered == 0 && answer.score == 0);
        must_keep(s.w, 0);
        must_keep(s.t, 0);
        return;
    }
    must_be_zero(s.w);
    MUST(answer.tiles <= s.t.len / 3);
    must_keep(s.t, 3 * (size_t)answer.tiles);
    if (answer.tiles != 0)
        memcpy(laid, s.t.at, 3 * (size_t)answer.tiles * sizeof *laid);
}

/* Compares by one engine. Its tiles are copied to laid. */
static sigxume_compared try_engine(
    const struct plan *plan, bool fast, const uint32_t *first, size_t n, const uint32_t *second, size_t m, uint32_t *laid)
{
    struct lent s = lend_pair(plan, first, n, second, m, plan->minimum);
    sigxume_compared answer =
        fast ? sigxume_compare_fast(
                   s.a.at, s.a.len, s.b.at, s.b.len, plan->minimum, plan->multiplier, plan->buckets, plan->start, s.w.at,
                   s.w.len, s.t.at, s.t.len)
             : sigxume_compare_plain(s.a.at, s.a.len, s.b.at, s.b.len, plan->minimum, s.w.at, s.w.len, s.t.at, s.t.len);
    MUST(answer.refusal == compare_refusal(plan, fast, first, n, second, m, s.w.len, s.t.len));
    saw(SAW_REFUSAL, plan->kind + (fast ? 16 : 0), answer.refusal);
    must_leave(s, answer, laid);
    return answer;
}

static bool same(sigxume_compared a, sigxume_compared b)
{
    return a.refusal == b.refusal && a.tiles == b.tiles && a.covered == b.covered && a.score == b.score;
}

/* Tiles of a pair, and of the pair with the sides exchanged. */
static void must_be_exchanged(const uint32_t *tiles, const uint32_t *other, size_t count)
{
    for (size_t i = 0; i < count; i++) {
        sigxume_tile a = sigxume_tile_at(tiles, i), b = sigxume_tile_at(other, i);
        MUST(a.first == b.second && a.second == b.first && a.length == b.length);
    }
}

static void try_compare(const struct plan *plan, const uint32_t *first, size_t n, const uint32_t *second, size_t m)
{
    static uint32_t plain_tiles[LOT], fast_tiles[LOT], other_tiles[LOT], earlier_tiles[LOT];
    static sigxume_compared earlier;
    sigxume_compared plain = try_engine(plan, false, first, n, second, m, plain_tiles);
    sigxume_compared fast = try_engine(plan, true, first, n, second, m, fast_tiles);
    MUST(plain.refusal == fast.refusal || fast.refusal == 4 || fast.refusal == 5);
    if (plain.refusal != 0)
        return;
    size_t bytes = 3 * (size_t)plain.tiles * sizeof *plain_tiles;
    if (fast.refusal == 0)
        MUST(same(plain, fast) && memcmp(plain_tiles, fast_tiles, bytes) == 0);

    /* The second time it is enough that all is as the first time. */
    if (side == AFTER) {
        must_be_tiled(first, n, second, m, plan->minimum, plain, plain_tiles);
        earlier = plain;
        memcpy(earlier_tiles, plain_tiles, bytes);
    } else {
        MUST(same(plain, earlier) && memcmp(plain_tiles, earlier_tiles, bytes) == 0);
    }

    /* Exchanging the sides only exchanges the sides of each tile. */
    if (fast.refusal == 0) {
        sigxume_compared other = try_engine(plan, side == AFTER, second, m, first, n, other_tiles);
        MUST(same(other, fast));
        must_be_exchanged(fast_tiles, other_tiles, other.tiles);
    }
}

/* The plan with the settings that serve well at a minimum. */
static struct plan served_well(struct plan plan, uint32_t minimum)
{
    plan.minimum = minimum;
    plan.multiplier = SIGXUME_MULTIPLIER;
    plan.buckets = SIGXUME_BUCKETS;
    plan.start = sigxume_start(minimum);
    return plan;
}

/* Covers with the plan's settings, or with those that serve well. Tiles and cover are copied to laid and curve. */
static sigxume_compared try_settings(
    const struct plan *plan, bool well, const uint32_t *first, size_t n, const uint32_t *second, size_t m, uint32_t *laid,
    uint32_t *curve)
{
    struct plan used = well ? served_well(*plan, 1) : *plan;
    struct lent s = lend_pair(plan, first, n, second, m, 1);
    struct slice c = lend(CURVE, NULL, room_of(SIGXUME_COVER_WORDS, plan->room[2]), plan->null);
    sigxume_compared answer =
        well ? sigxume_cover(s.a.at, s.a.len, s.b.at, s.b.len, s.w.at, s.w.len, s.t.at, s.t.len, c.at, c.len)
             : sigxume_cover_fast(
                   s.a.at, s.a.len, s.b.at, s.b.len, used.multiplier, used.buckets, used.start, s.w.at, s.w.len, s.t.at, s.t.len,
                   c.at, c.len);
    MUST(answer.refusal == cover_refusal(&used, first, n, second, m, s.w.len, s.t.len, c.len));
    saw(SAW_REFUSAL, plan->kind + (well ? 16 : 0), answer.refusal);
    must_leave(s, answer, laid);
    must_keep(c, answer.refusal == 0 ? SIGXUME_COVER_WORDS : 0);
    if (answer.refusal == 0)
        memcpy(curve, c.at, SIGXUME_COVER_WORDS * sizeof *curve);
    return answer;
}

/* What holds of an accepted cover, beside what holds of its tiles: the words follow from the tiles, never rise, and are what a
 * comparison covers at the minimum of the plan, at the length of the longest tile and above it, with the first of these tiles. */
static void must_be_covered(
    const struct plan *plan, const uint32_t *first, size_t n, const uint32_t *second, size_t m, sigxume_compared answer,
    const uint32_t *tiles, const uint32_t *curve)
{
    uint32_t sum = answer.covered, longest = answer.tiles != 0 ? tiles[2] : 0;
    size_t long_enough = answer.tiles, falls = 0;
    MUST(curve[0] == answer.covered);
    MUST(sigxume_score(answer.covered, n + m) == answer.score);
    for (size_t k = 0; k < SIGXUME_COVER_WORDS; k++) {
        for (; long_enough > 0 && tiles[3 * long_enough - 1] < k + 1; long_enough--)
            sum -= tiles[3 * long_enough - 1];
        MUST(curve[k] == sum);
        MUST(k == 0 || curve[k] <= curve[k - 1]);
        falls += k > 0 && curve[k] < curve[k - 1];
    }
    saw(SAW_CURVE, falls, bits(longest));

    static uint32_t laid[LOT];
    uint32_t minimums[] = {1 + plan->minimum % 256, longest, longest + 1};
    for (size_t i = 0; i < sizeof minimums / sizeof *minimums; i++) {
        uint32_t minimum = minimums[i] < 1 ? 1 : minimums[i] > 256 ? 256 : minimums[i];
        struct plan one = served_well(*plan, minimum);
        memset(one.room, 0, sizeof one.room);
        sigxume_compared compared = try_engine(&one, side == AFTER || n * m > MEDIUM, first, n, second, m, laid);
        MUST(compared.refusal == 0 && compared.covered == curve[minimum - 1]);
        MUST(compared.score == sigxume_score(curve[minimum - 1], n + m));
        MUST(compared.tiles <= answer.tiles && memcmp(laid, tiles, 3 * (size_t)compared.tiles * sizeof *laid) == 0);
        MUST(compared.tiles == answer.tiles || tiles[3 * (size_t)compared.tiles + 2] < minimum);
    }
}

static void try_cover(const struct plan *plan, const uint32_t *first, size_t n, const uint32_t *second, size_t m)
{
    static uint32_t tiles[LOT], other_tiles[LOT];
    static uint32_t curve[SIGXUME_COVER_WORDS], other_curve[SIGXUME_COVER_WORDS], earlier_curve[SIGXUME_COVER_WORDS];
    static sigxume_compared earlier;
    sigxume_compared answer = try_settings(plan, true, first, n, second, m, tiles, curve);
    sigxume_compared other = try_settings(plan, false, first, n, second, m, other_tiles, other_curve);
    MUST(other.refusal == answer.refusal || other.refusal == 4 || other.refusal == 5);
    if (answer.refusal != 0)
        return;
    if (other.refusal == 0) {
        MUST(same(answer, other) && memcmp(curve, other_curve, sizeof curve) == 0);
        MUST(memcmp(tiles, other_tiles, 3 * (size_t)answer.tiles * sizeof *tiles) == 0);
    }
    if (side == AFTER) {
        must_be_tiled(first, n, second, m, 1, answer, tiles);
        earlier = answer;
        memcpy(earlier_curve, curve, sizeof curve);
    } else {
        MUST(same(answer, earlier) && memcmp(curve, earlier_curve, sizeof curve) == 0);
    }
    must_be_covered(plan, first, n, second, m, answer, tiles, curve);

    /* Exchanging the sides only exchanges the sides of each tile. */
    other = try_settings(plan, true, second, m, first, n, other_tiles, other_curve);
    MUST(same(answer, other) && memcmp(curve, other_curve, sizeof curve) == 0);
    must_be_exchanged(tiles, other_tiles, answer.tiles);
}

/* Asks about the plan's threshold with its settings, or with those that serve well. No tile buffer is passed; that of minimum 0 has
 * nothing in it. */
static sigxume_told try_threshold(
    const struct plan *plan, bool well, const uint32_t *first, size_t n, const uint32_t *second, size_t m)
{
    struct plan used = well ? served_well(*plan, plan->minimum) : *plan;
    struct lent s = lend_pair(plan, first, n, second, m, 0);
    sigxume_told told =
        well ? sigxume_at_least(s.a.at, s.a.len, s.b.at, s.b.len, used.minimum, used.threshold, s.w.at, s.w.len)
             : sigxume_at_least_fast(
                   s.a.at, s.a.len, s.b.at, s.b.len, used.minimum, used.threshold, used.multiplier, used.buckets, used.start,
                   s.w.at, s.w.len);
    MUST(told.refusal == threshold_refusal(&used, first, n, second, m, s.w.len));
    saw(SAW_REFUSAL, plan->kind + (well ? 16 : 0), told.refusal);
    must_keep(s.a, 0);
    must_keep(s.b, 0);
    if (told.refusal == 0) {
        must_be_zero(s.w);
    } else {
        MUST(told.reached == 0 && told.tiles == 0);
        must_keep(s.w, 0);
    }
    return told;
}

static bool same_told(sigxume_told a, sigxume_told b)
{
    return a.refusal == b.refusal && a.reached == b.reached && a.tiles == b.tiles;
}

/* What is due about the plan's threshold, by all tiles of the pair: they are laid one by one on the words of the pattern until what
 * they cover scores at least so much, or less even with the free stretches of at least the minimum. */
static sigxume_told decided(
    const struct plan *plan, const uint32_t *first, size_t n, const uint32_t *second, size_t m, sigxume_compared compared,
    const uint32_t *tiles)
{
    static bool covered[2048];
    bool straight = first_is_pattern(first, n, second, m);
    size_t pattern = straight ? n : m, words = n + m != 0 ? n + m : 1, sum = 0;
    sigxume_told told = {0, compared.score >= plan->threshold, 0};
    memset(covered, 0, pattern);
    for (; told.tiles < compared.tiles; told.tiles++) {
        size_t free = 0, stretch = 0;
        for (size_t i = 0; i < pattern; i++) {
            stretch = covered[i] ? 0 : stretch + 1;
            /* A stretch counts as soon as it is long enough, and from then on word by word. */
            free += stretch == plan->minimum ? stretch : stretch > plan->minimum;
        }
        if (2000 * sum / words >= plan->threshold || 2000 * (sum + free) / words < plan->threshold)
            break;
        sigxume_tile tile = sigxume_tile_at(tiles, told.tiles);
        memset(covered + (straight ? tile.first : tile.second), 1, tile.length);
        sum += tile.length;
    }
    return told;
}

static void try_at_least(const struct plan *plan, const uint32_t *first, size_t n, const uint32_t *second, size_t m)
{
    static uint32_t tiles[LOT];
    sigxume_told told = try_threshold(plan, true, first, n, second, m);
    sigxume_told other = try_threshold(plan, false, first, n, second, m);
    MUST(other.refusal == told.refusal || other.refusal == 4 || other.refusal == 5);
    if (told.refusal != 0)
        return;
    MUST(other.refusal != 0 || same_told(told, other));

    struct plan asked = served_well(*plan, plan->minimum);
    memset(asked.room, 0, sizeof asked.room);
    sigxume_compared compared = try_engine(&asked, side == AFTER || n * m > MEDIUM, first, n, second, m, tiles);
    MUST(compared.refusal == 0);
    if (side == AFTER)
        must_be_tiled(first, n, second, m, plan->minimum, compared, tiles);
    MUST(same_told(told, decided(plan, first, n, second, m, compared, tiles)));
    saw(SAW_DECIDED, bits(compared.tiles) * 4 + told.reached * 2 + (told.tiles < compared.tiles), bits(told.tiles));

    /* Exchanging the sides changes nothing. */
    MUST(same_told(told, try_threshold(plan, true, second, m, first, n)));

    /* Just at the score, above and below. */
    for (uint32_t above = 0; above < 3; above++) {
        asked.threshold = compared.score + above - (compared.score != 0);
        if (asked.threshold <= 1000) {
            told = try_threshold(&asked, side == AFTER, first, n, second, m);
            MUST(same_told(told, decided(&asked, first, n, second, m, compared, tiles)));
        }
    }
}

/* Merges two records into a buffer, which is copied to merged where it is accepted. */
static sigxume_counted merge_once(
    const struct plan *plan, const uint32_t *first, size_t n, const uint32_t *second, size_t m, uint32_t *merged)
{
    size_t count = n != 0 ? first[0] % (1u << 14) : 0;
    struct slice a = lend(FIRST, first, n, plan->null);
    /* What is only read may be one slice. */
    struct slice b = first == second && n == m ? a : lend(SECOND, second, m, plan->null);
    size_t room = room_of(count + 2, plan->room[2]);
    struct slice out = lend(TILES, NULL, plan->room[1] == 1 ? room / 2 : room, plan->null);
    sigxume_counted answer = sigxume_merge(a.at, a.len, b.at, b.len, out.at, out.len);
    MUST(answer.refusal == merge_refusal(plan, first, n, second, m, out.len));
    must_keep(a, 0);
    must_keep(b, 0);
    saw(SAW_REFUSAL, plan->kind, answer.refusal);
    if (answer.refusal != 0) {
        MUST(answer.count == 0);
        must_keep(out, 0);
        return answer;
    }
    MUST(answer.count == count + 2);
    must_keep(out, answer.count);
    memcpy(merged, out.at, answer.count * sizeof *merged);
    return answer;
}

static void try_merge(const struct plan *plan, const uint32_t *first, size_t n, const uint32_t *second, size_t m)
{
    static uint32_t merged[SIGXUME_MAX_RECORD_WORDS], turned[SIGXUME_MAX_RECORD_WORDS];
    sigxume_counted answer = merge_once(plan, first, n, second, m, merged);
    if (answer.refusal != 0)
        return;
    size_t count = answer.count - 2, kinds = 0;
    MUST(merged[0] == first[0] && merged[count + 1] == trailer(first[0], merged + 1, count));
    for (size_t i = 1; i <= count; i++) {
        uint32_t a = first[i], b = second[i];
        bool both = is_call(a) && is_call(b), alike = match(a, b);
        MUST(merged[i] == (alike ? a : both ? SIGXUME_NO_CALL : is_call(a) ? a : b));
        kinds |= 1u << (alike ? a != b : both ? 2 : is_call(a) ? 3 : is_call(b) ? 4 : 5);
    }
    saw(SAW_MERGED, kinds, bits(count));
    struct plan exact = *plan;
    memset(exact.room, 0, sizeof exact.room);
    sigxume_read_answer read = try_read(&exact, merged, answer.count, count);
    MUST(read.refusal == 0 && read.id == first[0] >> 14 && read.count == count);

    /* The other way round the words are the same once replaced, and each way keeps its first's. */
    MUST(merge_once(&exact, second, m, first, n, turned).refusal == 0);
    for (size_t i = 1; i <= count; i++) {
        MUST(replaced(merged[i]) == replaced(turned[i]));
        MUST(merged[i] == turned[i] || (merged[i] == first[i] && turned[i] == second[i]));
    }

    /* With itself it is given back. */
    MUST(merge_once(&exact, merged, answer.count, merged, answer.count, turned).refusal == 0);
    MUST(memcmp(merged, turned, answer.count * sizeof *merged) == 0);
}

/* The input of the pair program: a minimum, then two records. */
static void try_pair(const struct plan *plan, const uint32_t *words, size_t len)
{
    if (len == 0)
        return;
    sigxume_read_answer first = try_read(plan, words + 1, len - 1, 2048);
    if (first.refusal != 0)
        return;
    const uint32_t *rest = words + 1 + first.used;
    sigxume_read_answer second = try_read(plan, rest, len - 1 - first.used, 2048);
    if (second.refusal != 0)
        return;
    struct plan settings = *plan;
    settings.minimum = words[0];
    settings.multiplier = 257;
    settings.buckets = 256;
    settings.start = words[0] > 20 ? words[0] : 20;
    try_compare(&settings, words + 2, first.count, rest + 1, second.count);
}

static uint32_t word_at(const uint8_t *bytes)
{
    return bytes[0] | (uint32_t)bytes[1] << 8 | (uint32_t)bytes[2] << 16 | (uint32_t)bytes[3] << 24;
}

static struct plan plan_of(const uint8_t *bytes)
{
    struct plan plan = {
        .kind = bytes[0] % KINDS,
        .alphabet = bytes[1],
        .bytes = bytes[2] & 1,
        .itself = bytes[2] >> 1 & 1,
        .null = bytes[2] >> 2 & 1,
        .in_range = bytes[2] >> 3 & 1,
        .halves = bytes[2] >> 4 & 1,
        .retired = bytes[2] >> 5 & 1,
        .room = {bytes[3] % 4, bytes[3] / 4 % 4, bytes[3] / 16 % 4},
        .cut = bytes[4] + 256u * bytes[5],
        .id = (uint16_t)(bytes[6] + 256u * bytes[7]),
        .minimum = word_at(bytes + 8),
        .multiplier = word_at(bytes + 12),
        .buckets = word_at(bytes + 16),
        .start = word_at(bytes + 20),
        .threshold = word_at(bytes + 24),
    };
    if (plan.in_range) {
        plan.minimum = 1 + plan.minimum % 256;
        plan.buckets = 1 + plan.buckets % 1024;
        /* A cover is a comparison at minimum 1, whatever the plan's. */
        uint32_t least = plan.kind == COVER ? 1 : plan.minimum;
        plan.start = least + plan.start % (2049 - least);
        plan.threshold %= 1001;
    }
    return plan;
}

/* The words of an input after its plan. Records are always words as they are. */
static size_t words_of(const struct plan *plan, const uint8_t *bytes, size_t size, uint32_t *words)
{
    bool records = plan->kind == READ || plan->kind == READ_ALL || plan->kind == PAIR || plan->kind == MERGE;
    bool narrow = plan->bytes && !records;
    size_t len = narrow ? size : size / 4;
    if (len > MOST)
        len = MOST;
    for (size_t i = 0; i < len; i++) {
        words[i] = !narrow ? word_at(bytes + 4 * i) : bytes[i] == 255 ? SIGXUME_NO_CALL : SIGXUME_CALL(bytes[i]);
        if (plan->alphabet != 0 && !records && words[i] != SIGXUME_NO_CALL) {
            uint32_t code = (words[i] & 0xffff) % plan->alphabet;
            if (plan->retired && code >= 16)
                code = code % 2 != 0 ? 65000 + code / 2 % 16 : replacements[code / 2 % 16];
            words[i] = SIGXUME_CALL(code);
        }
    }
    return len;
}

/* Where the second of two slices begins that an input is cut into. */
static size_t cut_of(const struct plan *plan, size_t len)
{
    return plan->itself ? len : plan->halves ? len / 2 : plan->cut % (len + 1);
}

static void try_plan(const struct plan *plan, const uint32_t *words, size_t len)
{
    switch (plan->kind) {
    case WORDS: try_words(plan, words, len); break;
    case READ: try_one_read(plan, words, len); break;
    case READ_ALL: try_read_all(plan, words, len); break;
    case WRITE: try_write(plan, words, len); break;
    case HASHES: try_hashes(plan, words, len); break;
    case PAIR: try_pair(plan, words, len); break;
    default: {
        size_t cut = cut_of(plan, len);
        const uint32_t *second = plan->itself ? words : words + cut;
        size_t m = plan->itself || plan->halves ? cut : len - cut;
        if (plan->kind == COVER)
            try_cover(plan, words, cut, second, m);
        else if (plan->kind == AT_LEAST)
            try_at_least(plan, words, cut, second, m);
        else if (plan->kind == MERGE)
            try_merge(plan, words, cut, second, m);
        else
            try_compare(plan, words, cut, second, m);
    }
    }
}

int LLVMFuzzerTestOneInput(const uint8_t *data, size_t size);

int LLVMFuzzerTestOneInput(const uint8_t *data, size_t size)
{
    static uint32_t words[MOST];
    if (size < PLAN)
        return 0;
    if (lots[0].low == NULL)
        make_lots();
    struct plan plan = plan_of(data);
    size_t len = words_of(&plan, data + PLAN, size - PLAN, words);
    side = AFTER;
    try_plan(&plan, words, len);
    side = BEFORE;
    try_plan(&plan, words, len);
    return 0;
}

static void put_word(uint8_t *bytes, uint32_t w)
{
    for (int i = 0; i < 4; i++)
        bytes[i] = (uint8_t)(w >> 8 * i);
}

#ifdef SEEDS

/* The inputs to start from, written to the folder that is the first argument. The pair program's input comes by standard input. */

static uint8_t input[PLAN + 4 * MOST];
static size_t filled;

static void begin(unsigned kind, uint32_t minimum, uint32_t multiplier, uint32_t buckets, uint32_t start)
{
    memset(input, 0, PLAN);
    input[0] = (uint8_t)kind;
    put_word(input + 8, minimum);
    put_word(input + 12, multiplier);
    put_word(input + 16, buckets);
    put_word(input + 20, start);
    filled = PLAN;
}

static void begin_at_least(uint32_t minimum, uint32_t threshold)
{
    begin(AT_LEAST, minimum, 257, 256, minimum > 20 ? minimum : 20);
    put_word(input + 24, threshold);
}

static void add(const uint32_t *words, size_t len)
{
    MUST(filled + 4 * len <= sizeof input);
    for (size_t i = 0; i < len; i++, filled += 4)
        put_word(input + filled, words[i]);
}

static void add_pair(const uint32_t *first, size_t n, const uint32_t *second, size_t m)
{
    input[4] = (uint8_t)n;
    input[5] = (uint8_t)(n >> 8);
    /* Those of equal length stay halves when they grow. */
    if (n == m)
        input[2] |= 1 << 4;
    add(first, n);
    add(second, m);
}

/* A record, also one of too many words. */
static void add_record(uint16_t id, const uint32_t *sequence, size_t count)
{
    uint32_t header = (uint32_t)id << 14 | (uint32_t)count, last = trailer(header, sequence, count);
    add(&header, 1);
    add(sequence, count);
    add(&last, 1);
}

/* Two records to merge. */
static void add_records(uint16_t id, const uint32_t *first, const uint32_t *second, size_t count)
{
    input[4] = (uint8_t)(count + 2);
    input[5] = (uint8_t)((count + 2) >> 8);
    add_record(id, first, count);
    add_record(id, second, count);
}

static void end(const char *folder)
{
    static unsigned number;
    char path[4096];
    MUST(snprintf(path, sizeof path, "%s/seed-%02u", folder, number++) < (int)sizeof path);
    FILE *file = fopen(path, "wb");
    MUST(file != NULL && fwrite(input, 1, filled, file) == filled && fclose(file) == 0);
}

int main(int argc, char **argv)
{
    static const size_t sizes[] = {0, 1, 2, 7, 8, 9, 64, 300, 2047, 2048, 2049};
    static const uint32_t minimums[] = {1, 2, 20, 256};
    static const uint32_t thresholds[] = {0, 300, 900, 1000};
    static uint32_t first[SIGXUME_MAX_WORDS + 1], second[SIGXUME_MAX_WORDS + 1];
    MUST(argc == 2);
    const char *folder = argv[1];

    begin(PAIR, 0, 0, 0, 0);
    filled += fread(input + filled, 1, sizeof input - filled, stdin);
    end(folder);

    /* The second sequence is the pattern, as a call is smaller than a no-call, and the tiles show it. */
    uint32_t a = SIGXUME_CALL(1), b = SIGXUME_CALL(2), none = SIGXUME_NO_CALL;
    for (int kind = 0; kind < 3; kind++) {
        if (kind == 2)
            begin_at_least(2, 800);
        else
            begin(kind == 1 ? COVER : COMPARE, 2, 257, 256, 20);
        add_pair((uint32_t[]){none, b, b, a, b}, 5, (uint32_t[]){a, b, b, b, none}, 5);
        end(folder);
    }

    /* It is the pattern here too: 27 is below 65,000, though not below 11, for which that stands. The tiles laid show it. */
    static const uint16_t codes[2][7] = {{65000, 27, 30, 52, 13, 101, 118}, {27, 65004, 65006, 65008, 65009, 12, 15}};
    for (size_t i = 0; i < 7; i++) {
        first[i] = SIGXUME_CALL(codes[0][i]);
        second[i] = SIGXUME_CALL(codes[1][i]);
    }
    begin_at_least(2, 1000);
    add_pair(first, 7, second, 7);
    end(folder);

    /* Two typings of one fish: matched, spelled otherwise, in conflict, called in one alone and in none. */
    first[0] = second[0] = first[3] = SIGXUME_CALL(1);
    first[1] = SIGXUME_CALL(65001);
    second[1] = SIGXUME_CALL(14);
    first[2] = SIGXUME_CALL(2);
    second[2] = SIGXUME_CALL(65000);
    first[4] = second[3] = first[5] = second[5] = SIGXUME_NO_CALL;
    second[4] = SIGXUME_CALL(65015);
    for (size_t n = 0; n <= 6; n++) {
        begin(MERGE, 0, 0, 0, 0);
        add_records((uint16_t)(65535 - n), first, second, n);
        end(folder);
    }

    for (size_t i = 0; i < 16; i++) {
        first[i] = second[i + 16] = SIGXUME_CALL(65000 + i);
        second[i] = first[i + 16] = SIGXUME_CALL(replacements[i]);
    }
    begin(MERGE, 0, 0, 0, 0);
    add_records(12, first, second, 32);
    end(folder);

    /* The second sequence is the first with its two thirds exchanged and a word changed now and then. */
    for (size_t k = 0; k < sizeof sizes / sizeof *sizes; k++) {
        size_t n = sizes[k];
        uint32_t state = (uint32_t)n + 1;
        for (size_t i = 0; i < n; i++) {
            state = state * 1664525 + 1013904223;
            first[i] = state >> 24 == 0 ? SIGXUME_NO_CALL : SIGXUME_CALL(state >> 16 & 63);
        }
        for (size_t i = 0; i < n; i++)
            second[i] = i % 41 == 40 ? SIGXUME_CALL(64) : first[(i + n / 3) % n];

        begin(WORDS, 0, 0, 0, 0);
        add(first, n);
        end(folder);
        begin(READ, 0, 0, 0, 0);
        add_record((uint16_t)(65535 - n), first, n);
        end(folder);
        begin(READ_ALL, 0, 0, 0, 0);
        for (size_t i = 0; i < 9; i++)
            add_record((uint16_t)i, first, n < 300 ? n : n / (i + 3));
        end(folder);
        begin(WRITE, 0, 0, 0, 0);
        add(first, n);
        end(folder);
        begin(MERGE, 0, 0, 0, 0);
        add_records((uint16_t)n, first, second, n);
        end(folder);
        begin(HASHES, n < 8 ? 1 : (uint32_t)n / 8, 257, 0, 0);
        add(first, n);
        end(folder);
        /* The second shorter, and of equal length. */
        for (size_t shorter = 0; shorter < 2; shorter++) {
            size_t m = shorter ? n - n / 9 : n;
            for (size_t i = 0; i < sizeof minimums / sizeof *minimums; i++) {
                begin(COMPARE, minimums[i], 257, 256, minimums[i] > 20 ? minimums[i] : 20);
                add_pair(first, n, second, m);
                end(folder);
            }
            begin(COVER, 8, 257, 256, 20);
            add_pair(first, n, second, m);
            end(folder);
            for (size_t i = 0; i < sizeof thresholds / sizeof *thresholds; i++) {
                begin_at_least(minimums[1 + i % 2], thresholds[i]);
                add_pair(first, n, second, m);
                end(folder);
            }
        }
    }
    return 0;
}

#else

size_t LLVMFuzzerMutate(uint8_t *data, size_t size, size_t max_size);
size_t LLVMFuzzerCustomMutator(uint8_t *data, size_t size, size_t max_size, unsigned seed);

static uint32_t chance;

/* A number below n, for the mutator. */
static size_t below(size_t n)
{
    chance = chance * 1664525 + 1013904223;
    return (chance >> 8) % n;
}

/* Makes records of bytes: a count that fits, sound words and the right trailer, each of them mostly, so that reading gets past the
 * checks that chance does not. */
static void repair(uint8_t *bytes, size_t len)
{
    static uint32_t words[MOST];
    size_t at = 0;
    while (len - at >= 2 && below(16) != 0) {
        uint32_t header = word_at(bytes + 4 * at);
        if (below(16) != 0)
            header &= 0x3fffffff;
        size_t count = header % (1u << 14), most = len - at - 2 < 2048 ? len - at - 2 : 2048;
        if (count > most) {
            if (below(16) == 0)
                return;
            count = below(most + 1);
        }
        header = header >> 14 << 14 | (uint32_t)count;
        put_word(bytes + 4 * at, header);
        for (size_t i = 0; i < count; i++) {
            words[i] = word_at(bytes + 4 * (at + 1 + i));
            if (!sound(words + i, 1) && below(256) != 0)
                words[i] = SIGXUME_CALL(words[i] & 0xffff);
            put_word(bytes + 4 * (at + 1 + i), words[i]);
        }
        uint32_t sum = trailer(header, words, count);
        if (below(16) == 0)
            sum ^= 1u << below(32);
        put_word(bytes + 4 * (at + count + 1), sum);
        at += count + 2;
    }
}

/* Makes a second typing of what begins at first, mostly of the same fish with the same count, and with the right trailer. Words of
 * it are as they were, as the first's, spelled otherwise, or no-calls. */
static void retype(const uint8_t *first, size_t n, uint8_t *second, size_t m)
{
    static uint32_t words[MOST];
    size_t count = n != 0 ? word_at(first) % (1u << 14) : 0;
    if (n < count + 2 || m < count + 2 || count > 2048 || below(16) == 0)
        return;
    uint32_t header = below(16) != 0 ? word_at(first) : word_at(first) ^ 1u << below(30);
    put_word(second, header);
    for (size_t i = 0; i < count; i++) {
        size_t kind = below(8), spelling = below(16);
        uint32_t one = word_at(first + 4 * (i + 1)), other = word_at(second + 4 * (i + 1));
        words[i] = kind < 4 ? one : kind == 4 || !sound(&other, 1) ? SIGXUME_NO_CALL : other;
        if (kind == 5 && (one & 0xffff) == replacements[spelling])
            words[i] = SIGXUME_CALL(65000 + spelling);
        if (kind == 6)
            words[i] = replaced(one);
        put_word(second + 4 * (i + 1), words[i]);
    }
    put_word(second + 4 * (count + 1), trailer(header, words, count));
}

size_t LLVMFuzzerCustomMutator(uint8_t *data, size_t size, size_t max_size, unsigned seed)
{
    chance = seed;
    size = LLVMFuzzerMutate(data, size, max_size);
    if (size < PLAN)
        return size;

    /* Settings at their limits, and buffers that are too short. */
    static const uint32_t limits[] = {0, 1, 2, 19, 20, 21, 255, 256, 257, 999, 1000, 1001, 1023, 1024, 1025, 2047, 2048, 2049};
    if (below(4) == 0)
        put_word(data + 8 + 4 * below(5), limits[below(sizeof limits / sizeof *limits)]);
    if (below(4) == 0)
        data[3] = (uint8_t)below(64);

    struct plan plan = plan_of(data);
    uint8_t *bytes = data + PLAN;
    size_t len = (size - PLAN) / 4;
    if (len > MOST)
        len = MOST;
    if (plan.kind == READ || plan.kind == READ_ALL)
        repair(bytes, len);
    if (plan.kind == PAIR && len > 0)
        repair(bytes + 4, len - 1);
    if (plan.kind == MERGE) {
        size_t cut = cut_of(&plan, len);
        repair(bytes, cut);
        repair(bytes + 4 * cut, len - cut);
        if (below(4) != 0)
            retype(bytes, cut, bytes + 4 * cut, len - cut);
    }
    if ((plan.kind == COMPARE || plan.kind == COVER || plan.kind == AT_LEAST) && len > 0 && below(2) == 0) {
        /* A block of one place at another too, so that there is something to lay; or the second half begins as the first does, so
         * that they differ late or nowhere. */
        bool alike = plan.halves && below(2) == 0;
        size_t from = alike ? 0 : below(len), to = alike ? len / 2 : below(len);
        size_t block = below(len - (from > to ? from : to)) + 1;
        memmove(bytes + 4 * to, bytes + 4 * from, 4 * block);
    }
    return size;
}

#endif
