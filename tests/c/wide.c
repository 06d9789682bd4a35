/* wide.c - what the reference pages cannot hold, on symbols of two bytes and of four: null pointers, every length of
 * every piece of memory up to some bytes beyond the right one, the length of the counts, b of every size, the bytes of
 * symbols and the lengths and the stack of the header, unaligned memory, decodes and passes against the calls of qmtd.h
 * on pages that both can hold, and the promise that data comes back from a page with few enough symbols replaced.
 * All memory lent lies between guard bytes. boundary.c does the like for bytes and bits. */
#include "qmtd.h"
#include "qmtd_wide.h"

#include <stdio.h>
#include <stdlib.h>
#include <string.h>

static int failures;

#define EXPECT(condition)                                                \
    do {                                                                 \
        if (!(condition)) {                                              \
            printf("wide.c:%d: not so: %s\n", __LINE__, #condition);     \
            failures++;                                                  \
        }                                                                \
    } while (0)

/* The calls of both widths. */
#define CODE uint32_t, uint32_t, const uint8_t *, uint64_t
#define READ const uint8_t *, uint64_t
#define LENT uint8_t *, uint64_t
static const struct width {
    uint32_t w;
    uint32_t (*check_table)(CODE);
    uint32_t (*encode)(CODE, READ, LENT);
    uint32_t (*syndrome)(CODE, READ, LENT);
    uint32_t (*decode)(CODE, READ, READ, LENT, LENT, LENT, LENT, LENT);
    uint32_t (*open)(CODE, READ, LENT, LENT, LENT);
    uint32_t (*pass)(CODE, uint32_t, LENT, LENT, LENT, LENT);
    uint32_t (*explain)(CODE, uint32_t, uint32_t, READ, READ, READ, LENT);
} widths[] = {{QMTD_U16_WIDTH, qmtd_u16_check_table, qmtd_u16_encode, qmtd_u16_syndrome, qmtd_u16_decode, qmtd_u16_open,
               qmtd_u16_pass, qmtd_u16_explain},
              {QMTD_U32_WIDTH, qmtd_u32_check_table, qmtd_u32_encode, qmtd_u32_syndrome, qmtd_u32_decode, qmtd_u32_open,
               qmtd_u32_pass, qmtd_u32_explain}},
  *on; /* the width of the calls below */

static uint32_t symbol_at(const uint8_t *symbols, size_t j)
{
    return on->w == QMTD_U16_WIDTH ? qmtd_u16_symbol(symbols, j) : qmtd_u32_symbol(symbols, j);
}

static void put_symbol(uint8_t *symbols, size_t j, uint32_t symbol)
{
    if (on->w == QMTD_U16_WIDTH)
        qmtd_u16_put_symbol(symbols, j, (uint16_t)symbol);
    else
        qmtd_u32_put_symbol(symbols, j, symbol);
}

/* A number taken modulo the q of the width. */
static uint32_t wrapped(uint32_t number)
{
    return on->w == QMTD_U16_WIDTH ? (uint16_t)number : number;
}

/* Code A of document 01, two branches with k = 13, three with k = 40, up to eight with two positions each, and a ruler
 * of ten marks. */
enum { K = 13, J = 4 };
static const uint8_t table_a[] = {0, 0, 1, 0, 4, 0, 6, 0};
static const uint8_t table_2[] = {0, 0, 1, 0, 4, 0, 0, 0, 2, 0, 7, 0};
static const uint8_t table_3[] = {0, 0, 1, 0, 4, 0, 13, 0, 0, 0, 2, 0, 17, 0, 24, 0, 0, 0, 5, 0, 26, 0, 34, 0};
static const uint8_t pairs[] = {0, 0, 1, 0, 0, 0, 2, 0, 0, 0, 3, 0, 0, 0, 4, 0,
                                0, 0, 5, 0, 0, 0, 6, 0, 0, 0, 7, 0, 0, 0, 8, 0};
static const uint8_t ruler[] = {0, 0, 1, 0, 6, 0, 10, 0, 23, 0, 26, 0, 34, 0, 41, 0, 53, 0, 55, 0};

/* ---- Memory to lend ---- */

/* Pieces of memory with guard bytes before and after, each long enough for a page of the largest symbols. */
enum { GUARD_LEN = 64, GUARD = 0xC3, FILL = 0xEE, MOST = QMTD_WIDE_PAGE_LEN(QMTD_U32_WIDTH, QMTD_MAX_K, 1) };
enum { DATA, PAGE, THRESHOLDS, RESULT, SYNDROME, DIFFERENCE, MARGINS, COUNTS, PIECES };
static uint8_t memory[PIECES][MOST + 2 * GUARD_LEN];
static uint8_t *at[PIECES];
static uint64_t len[PIECES]; /* what is lent of each in the calls below */

/* Lends so much of a piece, all else of it guard bytes: what is read is all 0, what is for an answer full of one byte. */
static void lend(size_t piece, uint64_t count)
{
    memset(memory[piece], GUARD, sizeof memory[piece]);
    memset(at[piece], piece < RESULT ? 0 : FILL, count);
    len[piece] = count;
}

/* Lends of every piece what k and b need, two thresholds and the counts, `shift` bytes from where they lie else. */
static void prepare(uint32_t k, uint32_t b, size_t shift)
{
    const uint64_t n = QMTD_WIDE_DATA_LEN(on->w, k, b);
    const uint64_t due[PIECES] = {n, QMTD_WIDE_PAGE_LEN(on->w, k, b), 2, n, QMTD_WIDE_SYNDROME_LEN(on->w, k), n,
                                  QMTD_MARGINS_LEN(k, b), QMTD_COUNTS_LEN};
    for (size_t i = 0; i < PIECES; i++) {
        at[i] = memory[i] + GUARD_LEN + (shift == 0 ? 0 : (shift + i) % 16);
        lend(i, due[i]);
    }
}

static int all(const uint8_t *bytes, size_t count, uint8_t value)
{
    for (size_t i = 0; i < count; i++)
        if (bytes[i] != value)
            return 0;
    return 1;
}

/* Is what is around the memory lent as it was? */
static int guarded(void)
{
    for (size_t i = 0; i < PIECES; i++) {
        const uint8_t *end = at[i] + len[i];
        if (!all(memory[i], (size_t)(at[i] - memory[i]), GUARD) ||
            !all(end, (size_t)(memory[i] + sizeof memory[i] - end), GUARD))
            return 0;
    }
    return 1;
}

static int untouched(void)
{
    for (size_t i = RESULT; i < PIECES; i++)
        if (!all(at[i], len[i], FILL))
            return 0;
    return guarded();
}

#define PIECE(i) at[i], len[i]

/* The calls on the pieces. The changes of a pass and the answer of an explanation take the place of the counts. */
static uint32_t encode(uint32_t k, uint32_t b, const uint8_t *table, uint64_t table_len)
{
    return on->encode(k, b, table, table_len, PIECE(DATA), PIECE(PAGE));
}

static uint32_t work_out_syndrome(uint32_t k, uint32_t b, const uint8_t *table, uint64_t table_len)
{
    return on->syndrome(k, b, table, table_len, PIECE(PAGE), PIECE(SYNDROME));
}

static uint32_t decode(uint32_t k, uint32_t b, const uint8_t *table, uint64_t table_len)
{
    return on->decode(k, b, table, table_len, PIECE(PAGE), PIECE(THRESHOLDS), PIECE(RESULT), PIECE(SYNDROME),
                      PIECE(DIFFERENCE), PIECE(MARGINS), PIECE(COUNTS));
}

static uint32_t open_page(uint32_t k, uint32_t b, const uint8_t *table, uint64_t table_len)
{
    return on->open(k, b, table, table_len, PIECE(PAGE), PIECE(RESULT), PIECE(SYNDROME), PIECE(DIFFERENCE));
}

static uint32_t pass(uint32_t k, uint32_t b, const uint8_t *table, uint64_t table_len, uint32_t threshold)
{
    return on->pass(k, b, table, table_len, threshold, PIECE(RESULT), PIECE(SYNDROME), PIECE(DIFFERENCE),
                    PIECE(COUNTS));
}

static uint32_t explain(uint32_t k, uint32_t b, const uint8_t *table, uint64_t table_len, uint32_t threshold,
                        uint32_t symbol)
{
    return on->explain(k, b, table, table_len, threshold, symbol, PIECE(RESULT), PIECE(SYNDROME), PIECE(DIFFERENCE),
                       PIECE(COUNTS));
}

/* ---- Refusals ---- */

/* Makes the call with this number of those below on code A, or on another k, b and table length. */
enum call { ENCODE, WORK_OUT_SYNDROME, DECODE, OPEN, PASS, EXPLAIN, CALLS };

static uint32_t make(enum call call, uint32_t k, uint32_t b, const uint8_t *table, uint64_t table_len)
{
    switch (call) {
    case ENCODE: return encode(k, b, table, table_len);
    case WORK_OUT_SYNDROME: return work_out_syndrome(k, b, table, table_len);
    case DECODE: return decode(k, b, table, table_len);
    case OPEN: return open_page(k, b, table, table_len);
    case PASS: return pass(k, b, table, table_len, 33);
    default: return explain(k, b, table, table_len, 33, K);
    }
}

/* The pieces that a call is lent, the thresholds left out, which have refusals of their own. */
static int takes(enum call call, size_t piece)
{
    switch (piece) {
    case DATA: return call == ENCODE;
    case PAGE: return call < PASS;
    case RESULT:
    case DIFFERENCE: return call >= DECODE;
    case SYNDROME: return call >= WORK_OUT_SYNDROME;
    case MARGINS: return call == DECODE;
    case COUNTS: return call == DECODE || call >= PASS;
    default: return 0;
    }
}

static uint64_t last_len(enum call call)
{
    return call == PASS ? QMTD_CHANGES_LEN : call == EXPLAIN ? QMTD_ANSWER_LEN : QMTD_COUNTS_LEN;
}

/* Every piece of every call with every length up to some bytes beyond the right one, which alone is not refused by 6,
 * also where a threshold or a symbol's number is amiss; null where the length is 0. */
static void every_length(void)
{
    for (enum call call = ENCODE; call < CALLS; call++)
        for (size_t i = 0; i < PIECES; i++) {
            if (!takes(call, i))
                continue;
            prepare(K, 1, 0);
            lend(COUNTS, last_len(call));
            const uint64_t due = len[i];
            uint8_t *const place = at[i];
            for (uint64_t n = 0; n <= due + 2 * on->w + 1; n++) {
                if (n == due)
                    continue;
                len[i] = n;
                at[i] = n == 0 ? NULL : place;
                EXPECT(make(call, K, 1, table_a, sizeof table_a) == QMTD_BAD_LENGTH);
                EXPECT(make(call, K, 1, table_a, 7) == QMTD_BAD_J);
            }
            len[i] = due;
            at[i] = place;
            EXPECT(untouched() && all(at[PAGE], len[PAGE], 0));
        }

    /* Lengths whose low bits are the right ones, and those of all pieces one byte too many. */
    for (enum call call = ENCODE; call < CALLS; call++) {
        prepare(K, 1, 0);
        len[COUNTS] = last_len(call);
        for (size_t i = 0; i < PIECES; i++)
            if (takes(call, i)) {
                const uint64_t due = len[i];
                for (int bit = 16; bit < 64; bit++) {
                    len[i] = due + ((uint64_t)1 << bit);
                    EXPECT(make(call, K, 1, table_a, sizeof table_a) == QMTD_BAD_LENGTH);
                }
                len[i] = due;
            }
        for (size_t i = 0; i < PIECES; i++)
            len[i]++;
        EXPECT(make(call, K, 1, table_a, sizeof table_a) == QMTD_BAD_LENGTH);
        EXPECT(make(call, 12, 1, table_a, sizeof table_a) == QMTD_NOT_SELF_ORTHOGONAL);
    }
}

/* All pieces null, and each refusal that comes before 6; then those after it. */
static void null_with_length_0(void)
{
    prepare(K, 1, 0);
    for (size_t i = 0; i < PIECES; i++) {
        at[i] = NULL;
        len[i] = 0;
    }
    for (enum call call = ENCODE; call < CALLS; call++) {
        EXPECT(make(call, K, 1, table_a, sizeof table_a) == QMTD_BAD_LENGTH);
        EXPECT(make(call, 0, 1, table_a, sizeof table_a) == QMTD_BAD_K);
        EXPECT(make(call, QMTD_MAX_K + 1, 0, NULL, 0) == QMTD_BAD_K);
        EXPECT(make(call, K, 0, NULL, 0) == QMTD_BAD_BRANCHES);
        EXPECT(make(call, K, 1, NULL, 0) == QMTD_BAD_J);
    }
    EXPECT(on->check_table(K, 1, NULL, 0) == QMTD_BAD_J && on->check_table(0, 0, NULL, 0) == QMTD_BAD_K);

    prepare(K, 1, 0);
    len[THRESHOLDS] = 0;
    at[THRESHOLDS] = NULL;
    EXPECT(decode(K, 1, table_a, sizeof table_a) == QMTD_BAD_THRESHOLD_COUNT);
    prepare(K, 1, 0);
    lend(THRESHOLDS, QMTD_MAX_THRESHOLDS + 1);
    EXPECT(decode(K, 1, table_a, sizeof table_a) == QMTD_BAD_THRESHOLD_COUNT);
    prepare(K, 1, 0);
    at[THRESHOLDS][1] = QMTD_MAX_THRESHOLD + 1;
    EXPECT(decode(K, 1, table_a, sizeof table_a) == QMTD_BAD_THRESHOLD && untouched());
    lend(COUNTS, QMTD_ANSWER_LEN);
    EXPECT(explain(K, 1, table_a, sizeof table_a, 33, K) == QMTD_BAD_THRESHOLD);
    EXPECT(explain(K, 1, table_a, sizeof table_a, 0, K) == QMTD_BAD_SYMBOL_NUMBER);
    EXPECT(explain(K, 1, table_a, sizeof table_a, 0, 0xFFFFFFFF) == QMTD_BAD_SYMBOL_NUMBER && untouched());
}

/* b outside its limits: 10, after 2 and before all else; b * k at its limit and above; every length of a table. */
static void branches(void)
{
    static const uint32_t others[] = {0, 9, 10, 255, 256, 257, 65535, 65536, 65537, 0x7FFFFFFF, 0x80000000, 0x80000001,
                                      0x10000001, 0x00100000, 0x00100001, 0xFFFFFFF8, 0xFFFFFFFE, 0xFFFFFFFF};
    static const uint8_t zeros[QMTD_MAX_TABLE_LEN + 2] = {0};
    prepare(K, 1, 0);
    for (size_t i = 0; i < sizeof others / sizeof others[0]; i++) {
        const uint32_t b = others[i];
        EXPECT(on->check_table(K, b, table_a, sizeof table_a) == QMTD_BAD_BRANCHES);
        EXPECT(on->check_table(16, b, table_a, 7) == QMTD_BAD_BRANCHES);
        EXPECT(on->check_table(QMTD_MAX_K, b, NULL, 0) == QMTD_BAD_BRANCHES);
        EXPECT(on->check_table(QMTD_MAX_K + 1, b, table_a, sizeof table_a) == QMTD_BAD_K);
        for (enum call call = ENCODE; call < CALLS; call++)
            EXPECT(make(call, K, b, table_a, sizeof table_a) == QMTD_BAD_BRANCHES);
    }
    EXPECT(untouched());
    for (uint32_t b = QMTD_MIN_B; b <= QMTD_MAX_B; b++) {
        const uint32_t most = QMTD_MAX_DATA / b, due = b == 1 ? QMTD_BAD_K : QMTD_BAD_BRANCHES;
        EXPECT(on->check_table(most, b, zeros, QMTD_TABLE_LEN(b, 1)) == QMTD_OK);
        EXPECT(on->check_table(most + 1, b, zeros, QMTD_TABLE_LEN(b, 1)) == due);
        for (uint32_t n = 0; n <= sizeof zeros; n++) {
            const uint32_t j = n / (2 * b);
            const int bad_j = n != QMTD_TABLE_LEN(b, j) || j < QMTD_MIN_J || j > QMTD_MAX_J;
            EXPECT(on->check_table(K, b, zeros, n) == (bad_j ? QMTD_BAD_J : j == 1 ? QMTD_OK : QMTD_BAD_POSITION));
        }
    }
}

/* ---- The header ---- */

static void header(void)
{
    static const uint8_t bytes[] = {0, 0, 0, 0, 0xFF, 0xFF, 0xFF, 0xFF, 1, 2, 3, 4, 0xFE, 0x80, 0x7F, 0x01};
    uint8_t copy[sizeof bytes + 1];
    for (size_t shift = 0; shift < 2; shift++) {
        memset(copy, 0xA5, sizeof copy);
        for (size_t j = 0; j < sizeof bytes / on->w; j++)
            put_symbol(copy + shift, j, symbol_at(bytes, j));
        EXPECT(memcmp(copy + shift, bytes, sizeof bytes) == 0 && copy[shift == 0 ? sizeof bytes : 0] == 0xA5);
    }
    EXPECT(qmtd_u16_symbol(bytes, 0) == 0 && qmtd_u16_symbol(bytes, 2) == 0xFFFF && qmtd_u16_symbol(bytes, 4) == 0x0201);
    EXPECT(qmtd_u16_symbol(bytes + 1, 5) == 0xFE04 && qmtd_u16_symbol(bytes, 6) == 0x80FE);
    EXPECT(qmtd_u32_symbol(bytes, 1) == 0xFFFFFFFF && qmtd_u32_symbol(bytes, 2) == 0x04030201);
    EXPECT(qmtd_u32_symbol(bytes + 1, 2) == 0xFE040302 && qmtd_u32_symbol(bytes, 3) == 0x017F80FE);

    EXPECT(QMTD_U16_WIDTH == 2 && QMTD_U32_WIDTH == 4);
    EXPECT(QMTD_WIDE_DATA_LEN(2, 13, 3) == 78 && QMTD_WIDE_PAGE_LEN(4, 13, 3) == 208);
    EXPECT(QMTD_WIDE_SYNDROME_LEN(4, 13) == 52 && QMTD_WIDE_PAGE_LEN(1 + 1, 6 + 7, 2 + 1) == 104);
    EXPECT(QMTD_WIDE_STACK(2, 128, 1) == 8 * 128 + QMTD_WIDE_STACK_FIXED);
    EXPECT(QMTD_WIDE_STACK(2, 129, 1) == 8 * 1024 + QMTD_WIDE_STACK_FIXED);
    EXPECT(QMTD_WIDE_STACK(2 + 2, 100 + 28, 7 + 1) == 14 * 1024 + QMTD_WIDE_STACK_FIXED);
    EXPECT(QMTD_WIDE_STACK(4, 205, 5) == 14 * 4096 + QMTD_WIDE_STACK_FIXED);
}

/* ---- Worked pages, unaligned ---- */

/* Case 9 of document 01 with 0 - 7 for 7, with every piece at every distance from an aligned address. */
static void unaligned(void)
{
    static const uint8_t due_counts[QMTD_COUNTS_LEN] = {[0] = 2, [4] = 2, [8] = 7, [12] = 2};
    uint8_t held[sizeof table_a + 16];
    for (size_t shift = 1; shift <= 16; shift++) {
        uint8_t *const table = held + shift % 16;
        memcpy(table, table_a, sizeof table_a);
        prepare(K, 1, shift);
        put_symbol(at[PAGE], 0, wrapped(0u - 7));
        put_symbol(at[PAGE], 1, 3);
        EXPECT(decode(K, 1, table, sizeof table_a) == QMTD_OK && guarded());
        EXPECT(all(PIECE(RESULT), 0) && all(PIECE(SYNDROME), 0) && memcmp(at[COUNTS], due_counts, 16) == 0);
        EXPECT(symbol_at(at[DIFFERENCE], 0) == 7 && symbol_at(at[DIFFERENCE], 1) == wrapped(0u - 3));
        EXPECT(all(at[DIFFERENCE] + 2 * on->w, len[DIFFERENCE] - 2 * on->w, 0));
        for (size_t j = 0; j < K; j++)
            EXPECT(qmtd_margin(at[MARGINS], j) == (j < 2 ? J - 1 : J + 1));

        EXPECT(open_page(K, 1, table, sizeof table_a) == QMTD_OK && guarded());
        EXPECT(memcmp(at[RESULT], at[PAGE], len[RESULT]) == 0 && all(PIECE(DIFFERENCE), 0));
        EXPECT(symbol_at(at[SYNDROME], 1) == wrapped(0u - 4) && symbol_at(at[SYNDROME], 2) == 3);
        /* The estimates of symbol 0 are 0, -7, -4, -7, -7. */
        lend(COUNTS, QMTD_ANSWER_LEN);
        EXPECT(explain(K, 1, table, sizeof table_a, 1, 0) == QMTD_OK && guarded());
        EXPECT(qmtd_number(at[COUNTS]) == QMTD_GROUND_CHANGE && qmtd_number(at[COUNTS] + 4) == wrapped(0u - 7));
        EXPECT(qmtd_number(at[COUNTS] + 8) == 3 && qmtd_number(at[COUNTS] + 12) == 1 && at[COUNTS][16] == 26);
        EXPECT(all(at[COUNTS] + 17, 7, 0));
        lend(COUNTS, QMTD_CHANGES_LEN);
        EXPECT(pass(K, 1, table, sizeof table_a, 0) == QMTD_OK && guarded());
        EXPECT(all(PIECE(RESULT), 0) && all(PIECE(SYNDROME), 0) && qmtd_number(at[COUNTS]) == 2);
        EXPECT(symbol_at(at[DIFFERENCE], 0) == 7 && symbol_at(at[DIFFERENCE], 1) == wrapped(0u - 3));

        memcpy(at[DATA], at[PAGE], len[DATA]);
        EXPECT(encode(K, 1, table, sizeof table_a) == QMTD_OK && guarded());
        EXPECT(memcmp(at[PAGE], at[DATA], len[DATA]) == 0 && symbol_at(at[PAGE], K + 1) == wrapped(0u - 4));
        EXPECT(symbol_at(at[PAGE], K + 6) == wrapped(0u - 7) && symbol_at(at[PAGE], K + 3) == 0);
        EXPECT(work_out_syndrome(K, 1, table, sizeof table_a) == QMTD_OK && guarded() && all(PIECE(SYNDROME), 0));
    }
}

/* ---- Drawn pages ---- */

/* A small generator of our own, so that a failure can be had again. */
static uint32_t draw(void)
{
    static uint64_t state = 1;
    state = state * 6364136223846793005u + 1442695040888963407u;
    return (uint32_t)(state >> 32);
}

static uint32_t below(uint32_t n)
{
    return draw() % n;
}

/* A symbol: any, or one of few that agree in their low byte, in their upper bytes, or lie at the ends of the width. */
static uint32_t some_symbol(void)
{
    static const uint32_t few[] = {1, 0xFF, 0x100, 0x101, 0x5A, 0x15A, 0x25A, 0xFF5A, 0x1005A, 0x100005A, 0x8000,
                                   0x80000000, 0xFFFF, 0xFFFFFFFF};
    return wrapped(below(2) ? draw() : few[below(sizeof few / sizeof few[0])]);
}

/* A page on which both the bytes of qmtd.h and wide symbols can stand: a byte as the highest of each symbol, all others
 * 0. Sums, differences and their order are then those of the bytes at q = 256, so that both calls answer alike. */
static void as_bytes(uint32_t k, uint32_t b, const uint8_t *table, uint32_t table_len)
{
    static uint8_t page[QMTD_MAX_PAGE_LEN], result[QMTD_MAX_DATA], s[QMTD_MAX_K], d[QMTD_MAX_DATA];
    static uint8_t margins[QMTD_MARGINS_LEN(QMTD_MAX_DATA, 1)], again[QMTD_MAX_PAGE_LEN];
    static const uint8_t list[] = {2, 0, 1, 0};
    const uint32_t n = QMTD_DATA_LEN(k, b), m = QMTD_PAGE_LEN(k, b), top = on->w - 1;
    uint8_t counts[QMTD_COUNTS_LEN], answer[QMTD_ANSWER_LEN], changes[QMTD_CHANGES_LEN];
    prepare(k, b, 0);
    for (uint32_t i = 0; i < n; i++)
        at[DATA][on->w * i + top] = result[i] = (uint8_t)below(256);
    EXPECT(qmtd_encode(256, k, b, table, table_len, result, n, page, m) == QMTD_OK);
    EXPECT(encode(k, b, table, table_len) == QMTD_OK);
    for (uint32_t i = 0; i < m; i++) {
        EXPECT(symbol_at(at[PAGE], i) == (uint32_t)page[i] << 8 * top);
        if (below(8) == 0)
            page[i] = at[PAGE][on->w * i + top] = (uint8_t)(1 + below(4));
    }
    lend(THRESHOLDS, sizeof list);
    memcpy(at[THRESHOLDS], list, sizeof list);
    EXPECT(qmtd_decode(256, k, b, table, table_len, page, m, list, sizeof list, result, n, s, k, d, n,
                       margins, QMTD_MARGINS_LEN(k, b), counts, sizeof counts) == QMTD_OK);
    EXPECT(decode(k, b, table, table_len) == QMTD_OK && guarded());
    EXPECT(memcmp(at[MARGINS], margins, len[MARGINS]) == 0 && memcmp(at[COUNTS], counts, sizeof counts) == 0);
    for (uint32_t i = 0; i < n; i++)
        EXPECT(symbol_at(at[RESULT], i) == (uint32_t)result[i] << 8 * top &&
               symbol_at(at[DIFFERENCE], i) == (uint32_t)d[i] << 8 * top);
    for (uint32_t i = 0; i < k; i++)
        EXPECT(symbol_at(at[SYNDROME], i) == (uint32_t)s[i] << 8 * top);

    /* The page opened, a symbol explained and a pass made. */
    EXPECT(qmtd_open(256, k, b, table, table_len, page, m, result, n, s, k, d, n) == QMTD_OK);
    EXPECT(open_page(k, b, table, table_len) == QMTD_OK);
    for (int round = 0; round < 10; round++) {
        const uint32_t symbol = below(n), threshold = below(4);
        EXPECT(qmtd_explain(256, k, b, table, table_len, threshold, symbol, result, n, s, k, d, n, answer,
                            sizeof answer) == QMTD_OK);
        lend(COUNTS, QMTD_ANSWER_LEN);
        EXPECT(explain(k, b, table, table_len, threshold, symbol) == QMTD_OK && guarded());
        EXPECT(qmtd_number(at[COUNTS] + 4) == qmtd_number(answer + 4) << 8 * top);
        memcpy(at[COUNTS] + 4, answer + 4, 4);
        EXPECT(memcmp(at[COUNTS], answer, sizeof answer) == 0);
    }
    EXPECT(qmtd_pass(256, k, b, table, table_len, 0, result, n, s, k, d, n, changes, sizeof changes) == QMTD_OK);
    lend(COUNTS, QMTD_CHANGES_LEN);
    EXPECT(pass(k, b, table, table_len, 0) == QMTD_OK && memcmp(at[COUNTS], changes, sizeof changes) == 0);
    for (uint32_t i = 0; i < n; i++)
        EXPECT(symbol_at(at[RESULT], i) == (uint32_t)result[i] << 8 * top);
    EXPECT(qmtd_syndrome(256, k, b, table, table_len, page, m, again, k) == QMTD_OK);
    EXPECT(work_out_syndrome(k, b, table, table_len) == QMTD_OK);
    for (uint32_t i = 0; i < k; i++)
        EXPECT(symbol_at(at[SYNDROME], i) == (uint32_t)again[i] << 8 * top);
}

/* A check of a data symbol: that of position `a` of its branch's run. */
static uint32_t check_of(uint32_t k, const uint8_t *table, uint32_t j, uint32_t symbol, uint32_t a)
{
    const uint8_t *run = table + 2 * j * (symbol / k);
    return (symbol + (run[2 * a] | (uint32_t)run[2 * a + 1] << 8)) % k;
}

/* The margin of a data symbol by its definition, from the syndrome and the difference handed back. */
static int32_t margin_of(uint32_t k, const uint8_t *table, uint32_t j, uint32_t symbol)
{
    uint32_t values[QMTD_MAX_J + 1];
    int32_t zeros = 0, most = 0;
    values[0] = symbol_at(at[DIFFERENCE], symbol);
    for (uint32_t a = 0; a < j; a++)
        values[a + 1] = symbol_at(at[SYNDROME], check_of(k, table, j, symbol, a));
    for (uint32_t a = 0; a <= j; a++) {
        int32_t equal = 0;
        for (uint32_t c = 0; c <= j; c++)
            equal += values[c] == values[a];
        if (values[a] == 0)
            zeros = equal;
        else if (equal > most)
            most = equal;
    }
    return zeros - most;
}

/* At most t of a page's symbols replaced, 2 * t + (smallest threshold) <= J: decode gives the data back, and so do its
 * passes made one by one, refused ones between them. The distance at the end is that of the page encoded from the
 * result, the margins are by their definition, and what is around the memory lent stays. */
static void recovery_of(uint32_t k, uint32_t b, const uint8_t *table, uint32_t j, int rounds)
{
    static uint8_t sent[MOST], encoded[MOST], received[MOST], result[MOST], s[MOST], d[MOST];
    const uint32_t table_len = QMTD_TABLE_LEN(b, j), n = QMTD_DATA_LEN(k, b), m = QMTD_PAGE_LEN(k, b), w = on->w;
    while (rounds-- > 0) {
        prepare(k, b, below(16));
        for (uint32_t i = 0; i < n; i++)
            put_symbol(at[DATA], i, some_symbol());
        EXPECT(encode(k, b, table, table_len) == QMTD_OK && guarded());
        memcpy(sent, at[DATA], len[DATA]);
        memcpy(encoded, at[PAGE], len[PAGE]);

        const uint32_t smallest = below(j + 1), list_len = 1 + below(4);
        uint32_t replaced = 0, start = 0;
        for (uint32_t t = (j - smallest) / 2; t > 0; t--)
            put_symbol(at[PAGE], below(m), some_symbol());
        for (uint32_t i = 0; i < m; i++)
            replaced += symbol_at(at[PAGE], i) != symbol_at(encoded, i);
        memcpy(received, at[PAGE], len[PAGE]);
        lend(THRESHOLDS, list_len);
        for (uint32_t i = 0; i < list_len; i++)
            at[THRESHOLDS][i] = (uint8_t)(smallest + below(QMTD_MAX_THRESHOLD + 1 - smallest));
        at[THRESHOLDS][below(list_len)] = (uint8_t)smallest;

        EXPECT(decode(k, b, table, table_len) == QMTD_OK && guarded());
        EXPECT(memcmp(at[RESULT], sent, len[RESULT]) == 0 && memcmp(at[PAGE], received, len[PAGE]) == 0);
        EXPECT(qmtd_number(at[COUNTS] + 12) == replaced);
        for (uint32_t i = 0; i < n; i++) {
            EXPECT(wrapped(symbol_at(received, i) + symbol_at(at[DIFFERENCE], i)) == symbol_at(at[RESULT], i));
            EXPECT(qmtd_margin(at[MARGINS], i) == margin_of(k, table, j, i));
        }
        for (uint32_t i = 0; i < k; i++)
            EXPECT(wrapped(symbol_at(received, n + i) + symbol_at(at[SYNDROME], i)) == symbol_at(encoded, n + i));
        memcpy(result, at[RESULT], len[RESULT]);
        memcpy(s, at[SYNDROME], len[SYNDROME]);
        memcpy(d, at[DIFFERENCE], len[DIFFERENCE]);
        const uint32_t passes = qmtd_number(at[COUNTS]), changes = qmtd_number(at[COUNTS] + 4);
        const uint32_t distance = qmtd_number(at[COUNTS] + 8);

        EXPECT(open_page(k, b, table, table_len) == QMTD_OK && memcmp(at[RESULT], received, w * n) == 0);
        EXPECT(all(PIECE(DIFFERENCE), 0));
        for (uint32_t i = 0; i < k; i++)
            start += symbol_at(at[SYNDROME], i) != 0;
        EXPECT(start == distance);
        uint32_t made_passes = 0, made_changes = 0;
        for (uint32_t i = 0; i < list_len;) {
            const uint32_t threshold = at[THRESHOLDS][i++];
            lend(COUNTS, QMTD_CHANGES_LEN - 1);
            EXPECT(pass(k, b, table, table_len, threshold) == QMTD_BAD_LENGTH);
            lend(COUNTS, QMTD_CHANGES_LEN);
            EXPECT(pass(k, b, table, table_len, QMTD_MAX_THRESHOLD + 1 + below(100)) == QMTD_BAD_THRESHOLD);
            EXPECT(all(PIECE(COUNTS), FILL));
            EXPECT(pass(k, b, table, table_len, threshold) == QMTD_OK && guarded());
            const uint32_t made = qmtd_number(at[COUNTS]);
            made_passes++;
            made_changes += made;
            while (made == 0 && i < list_len && at[THRESHOLDS][i] >= threshold)
                i++;
        }
        EXPECT(made_passes == passes && made_changes == changes);
        EXPECT(memcmp(at[RESULT], result, len[RESULT]) == 0 && memcmp(at[SYNDROME], s, len[SYNDROME]) == 0 &&
               memcmp(at[DIFFERENCE], d, len[DIFFERENCE]) == 0);
    }
}

static void drawn(void)
{
    recovery_of(K, 1, table_a, J, 200);
    recovery_of(K, 2, table_2, 3, 100);
    recovery_of(40, 3, table_3, 4, 100);
    recovery_of(128, 1, ruler, 10, 40);
    recovery_of(129, 1, ruler, 10, 40);
    recovery_of(1024, 1, ruler, 10, 5);
    recovery_of(1025, 1, ruler, 10, 5);
    recovery_of(QMTD_MAX_K, 1, ruler, 10, 3);
    for (uint32_t b = QMTD_MIN_B; b <= QMTD_MAX_B; b++) {
        recovery_of(17, b, pairs, 2, 20);
        recovery_of(QMTD_MAX_DATA / b, b, pairs, 2, 2);
        as_bytes(17, b, pairs, QMTD_TABLE_LEN(b, 2));
        as_bytes(QMTD_MAX_DATA / b, b, pairs, QMTD_TABLE_LEN(b, 2));
    }
    for (int round = 0; round < 20; round++) {
        as_bytes(K, 1, table_a, sizeof table_a);
        as_bytes(K, 2, table_2, sizeof table_2);
        as_bytes(40, 3, table_3, sizeof table_3);
        as_bytes(150, 1, ruler, sizeof ruler);
    }
}

int main(void)
{
    setvbuf(stdout, NULL, _IONBF, 0); /* what was found is shown even if the archive crashes the program */
    for (size_t i = 0; i < sizeof widths / sizeof widths[0]; i++) {
        on = &widths[i];
        every_length();
        null_with_length_0();
        branches();
        header();
        unaligned();
        drawn();
    }
    printf("%d failures\n", failures);
    return failures == 0 ? 0 : 1;
}
