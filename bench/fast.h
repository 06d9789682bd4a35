/* fast.h - what the fast yardsticks share, whatever the width of a symbol: the table, where the checks of a symbol are,
 * the zeros among the estimates of each symbol, kept from bytes that are 0 where a symbol of the syndrome is 0, and the
 * margins that the zeros tell. */
#ifndef FAST_H
#define FAST_H

#include "calls.h"

#include <string.h>

/* ---- The table ---- */

/* The positions of a branch; where zeros are kept, also k less each. */
struct positions {
    size_t count;
    size_t at[QMTD_MAX_J], back[QMTD_MAX_J];
};

struct branches {
    size_t count;
    struct positions of[QMTD_MAX_B];
};

static uint32_t read_table(uint32_t k, uint32_t b, const uint8_t *table, uint64_t table_len,
                           struct branches *branches)
{
    if (k < QMTD_MIN_K || k > QMTD_MAX_K)
        return QMTD_BAD_K;
    if (b < QMTD_MIN_B || b > QMTD_MAX_B || b * k > QMTD_MAX_DATA)
        return QMTD_BAD_BRANCHES;
    if (table_len % 2 != 0 || table_len > QMTD_MAX_TABLE_LEN)
        return QMTD_BAD_J;
    uint32_t all = (uint32_t)table_len / 2, n = all / b;
    if (n * b != all || n < QMTD_MIN_J || n > QMTD_MAX_J)
        return QMTD_BAD_J;

    branches->count = b;
    for (uint32_t r = 0; r < b; r++) {
        struct positions *positions = &branches->of[r];
        size_t least = 0; /* the smallest that the next position may be */
        positions->count = n;
        for (size_t a = 0; a < n; a++) {
            size_t p = table[0] | (size_t)table[1] << 8;
            if (p < least || p >= k)
                return QMTD_BAD_POSITION;
            positions->at[a] = p;
            least = p + 1;
            table += 2;
        }
    }

    /* One flag for each difference, for all runs; a pair of positions marks two. */
    uint8_t marked[QMTD_MAX_K], twice = 0;
    memset(marked, 0, k);
    for (uint32_t r = 0; r < b; r++) {
        const struct positions *positions = &branches->of[r];
        for (size_t a = 1; a < n; a++)
            for (size_t c = 0; c < a; c++) {
                size_t d = positions->at[a] - positions->at[c];
                twice |= marked[d];
                marked[d] = 1;
                twice |= marked[k - d];
                marked[k - d] = 1;
            }
    }
    return twice ? QMTD_NOT_SELF_ORTHOGONAL : QMTD_OK;
}

/* ---- Checks ---- */

/* Where the checks of symbol j of a branch are, counted from j. The positions from `straight` on have wrapped. */
struct offsets {
    size_t straight;
    ptrdiff_t at[QMTD_MAX_J];
};

static inline void start_offsets(const struct positions *positions, struct offsets *offsets)
{
    offsets->straight = positions->count;
    for (size_t a = 0; a < positions->count; a++)
        offsets->at[a] = (ptrdiff_t)positions->at[a];
}

/* On to symbol j, from one before it. */
static inline void move_offsets(size_t k, const struct positions *positions, size_t j, struct offsets *offsets)
{
    while (offsets->straight > 0 && j + positions->at[offsets->straight - 1] >= k)
        offsets->at[--offsets->straight] -= (ptrdiff_t)k;
}

/* ---- The zeros of each symbol ---- */

/* The zeros among the estimates of each symbol are kept. Those of a branch are two parts of k counts, so that no index
 * wraps: check c counts by position p at k - p + c, which is k + j for symbol j, or j where its check has wrapped. The
 * own difference counts at k + j. Counts are read eight at a time, so eight follow that are as high as any. */
enum { MORE = 8, MAX_ZEROS = 2 * QMTD_MAX_DATA + MORE * QMTD_MAX_B };

/* A number in each of eight bytes. */
#define EIGHT(number) ((number) * UINT64_C(0x0101010101010101))

static inline uint8_t *zeros_of(uint8_t *zeros, size_t k, size_t branch)
{
    return zeros + branch * (2 * k + MORE);
}

static inline uint32_t zeros_at(const uint8_t *zeros, size_t k, size_t j)
{
    return (uint32_t)zeros[j] + zeros[k + j];
}

static void count_zeros(uint8_t *restrict zeros, const uint8_t *restrict syndrome, size_t n)
{
    for (size_t i = 0; i < n; i++)
        zeros[i] = (uint8_t)(zeros[i] + (syndrome[i] == 0));
}

static void count_two_zeros(uint8_t *restrict zeros, const uint8_t *restrict one, const uint8_t *restrict other,
                            size_t n)
{
    for (size_t i = 0; i < n; i++)
        zeros[i] = (uint8_t)(zeros[i] + (one[i] == 0) + (other[i] == 0));
}

/* Counts the zeros of a branch whose differences are all 0, by two positions at a time, in straight runs. */
static void start_zeros(size_t k, struct positions *positions, const uint8_t *syndrome, uint8_t *zeros)
{
    uint64_t more = EIGHT(QMTD_MAX_J + 1);
    memset(zeros, 0, k);
    memset(zeros + k, 1, k);
    __builtin_memcpy(zeros + 2 * k, &more, MORE);

    for (size_t a = 0; a < positions->count; a++)
        positions->back[a] = k - positions->at[a];
    size_t a = 0;
    for (; a + 2 <= positions->count; a += 2) {
        uint8_t *one = zeros + positions->back[a], *other = zeros + positions->back[a + 1];
        size_t apart = (size_t)(one - other);
        count_zeros(other, syndrome, apart);
        count_two_zeros(one, syndrome, syndrome + apart, k - apart);
        count_zeros(other + k, syndrome + (k - apart), apart);
    }
    if (a < positions->count)
        count_zeros(zeros + positions->back[a], syndrome, k);
}

/* A byte for each of the eight symbols from j on: its highest bit tells whether the zeros reach the bound. Two
 * counts are at most 66, so none overflows. */
static inline uint64_t reach(const uint8_t *zeros, size_t k, size_t j, uint32_t bound)
{
    uint64_t wrapped, straight;
    __builtin_memcpy(&wrapped, zeros + j, 8);
    __builtin_memcpy(&straight, zeros + k + j, 8);
    return wrapped + straight + EIGHT(128 - bound);
}

/* The same bits where they do not, and no others. */
static inline uint64_t below(const uint8_t *zeros, size_t k, size_t j, uint32_t bound)
{
    return ~reach(zeros, k, j, bound) & EIGHT(128);
}

/* The first of the eight symbols that has its bit: x86-64 has a number's low byte first. */
static inline size_t first_of(uint64_t bits)
{
    return (size_t)__builtin_ctzll(bits) / 8;
}

/* From symbol j on, if a block of 64 begins there, past the blocks in which all zeros reach the bound. */
static inline size_t past_blocks(const uint8_t *zeros, size_t k, size_t j, uint32_t bound)
{
    if (j % 64 == 0)
        for (; j + 64 <= k; j += 64) {
            uint64_t all = EIGHT(128);
            for (size_t i = 0; i < 64; i += 8)
                all &= reach(zeros, k, j + i, bound);
            if (all != EIGHT(128))
                break;
        }
    return j;
}

/* Counts one zero more or less for each symbol of a branch in a check; zeros are from that check on. */
static inline void recount(uint8_t *restrict zeros, const size_t *restrict back, size_t n, uint8_t change)
{
    size_t a = 0;
    for (; a + 4 <= n; a += 4) {
        zeros[back[a]] += change;
        zeros[back[a + 1]] += change;
        zeros[back[a + 2]] += change;
        zeros[back[a + 3]] += change;
    }
    for (; a < n; a++)
        zeros[back[a]] += change;
}

static inline void fill(uint8_t *bytes, size_t n, uint8_t number)
{
    for (size_t i = 0; i < n; i++)
        bytes[i] = number;
}

/* ---- Passes ---- */

/* The changes of all passes, and the distance: the symbols of syndrome and difference that are not 0. */
struct tally {
    uint32_t changes, distance;
};

/* By clang a pass takes fewer instructions where this is a function of its own, by gcc where it is not. */
#ifdef __clang__
#define APART __attribute__((noinline))
#else
#define APART
#endif

/* A number of four bytes in one store. */
static inline void put_number(uint8_t *numbers, size_t i, uint32_t number)
{
    __builtin_memcpy(numbers + 4 * i, &number, 4);
}

/* ---- Margins ---- */

enum { LANES = 64 };

/* Many at a time: the time of a shorter loop depends on where the linker puts it. */
static void fill_margins(uint8_t *margins, size_t n, uint32_t margin)
{
    size_t j = 0;
    for (; j + LANES <= n; j += LANES)
        for (size_t lane = 0; lane < LANES; lane++)
            put_number(margins, j + lane, margin);
    for (; j < n; j++)
        put_number(margins, j, margin);
}

/* The margins where no two of the other estimates are equal. */
static void write_margins_of_zeros(uint8_t *restrict margins, const uint8_t *restrict zeros, size_t k, uint32_t all)
{
    for (size_t j = 0; j < k; j++) {
        uint8_t n = (uint8_t)(zeros[j] + zeros[k + j]);
        put_number(margins, j, n - (uint32_t)(n != all));
    }
}

#endif
