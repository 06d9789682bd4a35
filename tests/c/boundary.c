/* boundary.c - what the reference pages cannot hold: null pointers, the length of the counts, names in the header, the
 * bytes of positions, numbers and margins, every length of a table with every b, unaligned memory, which passes of a
 * list are run on the page of case 7 and on clean ones, passes made one by one on the buffers of an opened page, refused
 * ones between them, symbols of such a page explained, each pass against the grounds of the symbols that it came to
 * first, every place of the counters and many lengths, decodes with counters against the same without, block lengths of
 * every size, encodes and decodes with an outer check against their definition, and the promise that data comes back
 * from a page with few enough symbols replaced. Nearly all of it on bit pages too, and there every value of a byte and
 * many of q. */
#include "qmtd.h"
#include "qmtd_bits.h"

#include <stdio.h>
#include <stdlib.h>
#include <string.h>

static int failures;

#define EXPECT(condition)                                                    \
    do {                                                                     \
        if (!(condition)) {                                                  \
            printf("boundary.c:%d: not so: %s\n", __LINE__, #condition);     \
            failures++;                                                      \
        }                                                                    \
    } while (0)

/* The seven calls that bit pages have too, in both profiles; a q of each, the largest one and one that is refused, and
 * the symbol that is received in place of 0 on the pages below. */
#define CODE uint32_t, uint32_t, uint32_t, const uint8_t *, uint64_t
#define READ const uint8_t *, uint64_t
#define LENT uint8_t *, uint64_t
static const struct profile {
    uint32_t q, most_q, other_q;
    uint8_t symbol;
    uint32_t (*check_table)(CODE);
    uint32_t (*encode)(CODE, READ, LENT);
    uint32_t (*syndrome)(CODE, READ, LENT);
    uint32_t (*decode)(CODE, READ, READ, LENT, LENT, LENT, LENT, LENT);
    uint32_t (*open)(CODE, READ, LENT, LENT, LENT);
    uint32_t (*pass)(CODE, uint32_t, LENT, LENT, LENT, LENT);
    uint32_t (*explain)(CODE, uint32_t, uint32_t, READ, READ, READ, LENT);
} byte_pages = {5, QMTD_MAX_Q, 2, 7, qmtd_check_table, qmtd_encode, qmtd_syndrome, qmtd_decode, qmtd_open, qmtd_pass,
                qmtd_explain},
  bit_pages = {2, 2, 3, 1, qmtd_bits_check_table, qmtd_bits_encode, qmtd_bits_syndrome, qmtd_bits_decode,
               qmtd_bits_open, qmtd_bits_pass, qmtd_bits_explain},
  *on = &byte_pages; /* the profile of the calls below */

/* Code A of document 01. */
enum { K = 13, J = 4 };
static const uint8_t table_a[QMTD_TABLE_LEN(1, J)] = {0, 0, 1, 0, 4, 0, 6, 0};

/* Two branches with k = 13 and three with k = 40. */
static const uint8_t table_2[QMTD_TABLE_LEN(2, 3)] = {0, 0, 1, 0, 4, 0, 0, 0, 2, 0, 7, 0};
static const uint8_t table_3[QMTD_TABLE_LEN(3, 4)] = {0, 0, 1, 0, 4, 0, 13, 0,
                                                      0, 0, 2, 0, 17, 0, 24, 0,
                                                      0, 0, 5, 0, 26, 0, 34, 0};

/* All that a call takes, in memory of exactly the right length; the calls below are lent parts of it. */
static uint8_t data[K], page[QMTD_PAGE_LEN(K, 1)], thresholds[2];
static uint8_t result[K], syndrome[K], difference[K], margins[QMTD_MARGINS_LEN(K, 1)], counts[QMTD_COUNTS_LEN];
static uint8_t changes[QMTD_CHANGES_LEN], answer[QMTD_ANSWER_LEN];

/* The counters lie between guard bytes. */
enum { GUARD_LEN = 64 };
static uint8_t guarded[QMTD_COUNTERS_LEN + 2 * GUARD_LEN], *const counters = guarded + GUARD_LEN;

/* Data, page and counters all 0, thresholds 0, 0; every lent answer, and what is around the counters, full of 0xEE. */
static void prepare(void)
{
    memset(data, 0, sizeof data);
    memset(page, 0, sizeof page);
    memset(thresholds, 0, sizeof thresholds);
    memset(result, 0xEE, sizeof result);
    memset(syndrome, 0xEE, sizeof syndrome);
    memset(difference, 0xEE, sizeof difference);
    memset(margins, 0xEE, sizeof margins);
    memset(counts, 0xEE, sizeof counts);
    memset(changes, 0xEE, sizeof changes);
    memset(answer, 0xEE, sizeof answer);
    memset(guarded, 0xEE, sizeof guarded);
    memset(counters, 0, QMTD_COUNTERS_LEN);
}

static int all(const uint8_t *bytes, size_t len, uint8_t value)
{
    for (size_t i = 0; i < len; i++)
        if (bytes[i] != value)
            return 0;
    return 1;
}

/* Are the counters all 0, and what is around them as it was? */
static int counters_zero(void)
{
    return all(counters, QMTD_COUNTERS_LEN, 0) && all(guarded, GUARD_LEN, 0xEE) &&
           all(counters + QMTD_COUNTERS_LEN, GUARD_LEN, 0xEE);
}

static int answers_untouched(void)
{
    return all(result, sizeof result, 0xEE) && all(syndrome, sizeof syndrome, 0xEE) &&
           all(difference, sizeof difference, 0xEE) && all(margins, sizeof margins, 0xEE) &&
           all(counts, sizeof counts, 0xEE) && all(changes, sizeof changes, 0xEE) &&
           all(answer, sizeof answer, 0xEE);
}

/* A decode of code A at q = 5, or of bits, with the given table, page, thresholds and length of the counts. */
static uint32_t decode(const uint8_t *table, size_t table_len, size_t page_len,
                       const uint8_t *list, size_t list_len, size_t counts_len)
{
    return on->decode(on->q, K, 1, table, table_len, page, page_len, list, list_len, result, sizeof result,
                      syndrome, sizeof syndrome, difference, sizeof difference, margins, sizeof margins,
                      counts, counts_len);
}

/* The same at q = 5 with counters. */
static uint32_t decode_counters(const uint8_t *table, size_t table_len, size_t page_len, const uint8_t *list,
                                size_t list_len, uint8_t *lent, size_t lent_len, size_t counts_len)
{
    return qmtd_decode_counters(5, K, 1, table, table_len, page, page_len, list, list_len, result, sizeof result,
                                syndrome, sizeof syndrome, difference, sizeof difference, margins, sizeof margins,
                                lent, lent_len, counts, counts_len);
}

/* The same with an outer check. */
static uint32_t decode_outer(const uint8_t *table, size_t table_len, uint32_t block, size_t page_len,
                             const uint8_t *list, size_t list_len, size_t counts_len)
{
    return qmtd_decode_outer(5, K, 1, table, table_len, block, page, page_len, list, list_len, result, sizeof result,
                             syndrome, sizeof syndrome, difference, sizeof difference, margins, sizeof margins,
                             counts, counts_len);
}

static void version(void)
{
    EXPECT(qmtd_version() == QMTD_VERSION_NUMBER);
    EXPECT(QMTD_VERSION_NUMBER == QMTD_VERSION_MAJOR * 10000 + QMTD_VERSION_MINOR * 100 + QMTD_VERSION_PATCH);
}

static void null_with_length_0(void)
{
    const uint8_t *t = table_a;
    const size_t n = sizeof table_a;
    prepare();

    EXPECT(on->check_table(on->q, K, 1, NULL, 0) == QMTD_BAD_J);

    EXPECT(on->encode(on->q, K, 1, NULL, 0, data, K, page, 2 * K) == QMTD_BAD_J);
    EXPECT(on->encode(on->q, K, 1, t, n, NULL, 0, page, 2 * K) == QMTD_BAD_LENGTH);
    EXPECT(on->encode(on->q, K, 1, t, n, data, K, NULL, 0) == QMTD_BAD_LENGTH);
    EXPECT(on->encode(on->q, K, 1, t, n, NULL, 0, NULL, 0) == QMTD_BAD_LENGTH);
    EXPECT(on->encode(on->q, 0, 1, t, n, NULL, 0, NULL, 0) == QMTD_BAD_K);
    EXPECT(on->encode(0, 0, 1, NULL, 0, NULL, 0, NULL, 0) == QMTD_BAD_Q);

    EXPECT(on->syndrome(on->q, K, 1, NULL, 0, page, 2 * K, syndrome, K) == QMTD_BAD_J);
    EXPECT(on->syndrome(on->q, K, 1, t, n, NULL, 0, syndrome, K) == QMTD_BAD_LENGTH);
    EXPECT(on->syndrome(on->q, K, 1, t, n, page, 2 * K, NULL, 0) == QMTD_BAD_LENGTH);
    EXPECT(on->syndrome(on->q, K, 1, t, n, NULL, 0, NULL, 0) == QMTD_BAD_LENGTH);
    EXPECT(on->syndrome(on->q, 0, 1, t, n, NULL, 0, NULL, 0) == QMTD_BAD_K);
    EXPECT(on->syndrome(0, 0, 1, NULL, 0, NULL, 0, NULL, 0) == QMTD_BAD_Q);

    EXPECT(on->decode(on->q, K, 1, NULL, 0, page, 2 * K, thresholds, 2, result, K, syndrome, K, difference, K,
                      margins, 4 * K, counts, 16) == QMTD_BAD_J);
    EXPECT(on->decode(on->q, K, 1, t, n, NULL, 0, thresholds, 2, result, K, syndrome, K, difference, K, margins, 4 * K,
                      counts, 16) == QMTD_BAD_LENGTH);
    EXPECT(on->decode(on->q, K, 1, t, n, page, 2 * K, NULL, 0, result, K, syndrome, K, difference, K, margins, 4 * K,
                      counts, 16) == QMTD_BAD_THRESHOLD_COUNT);
    EXPECT(on->decode(on->q, K, 1, t, n, page, 2 * K, thresholds, 2, NULL, 0, syndrome, K, difference, K,
                      margins, 4 * K, counts, 16) == QMTD_BAD_LENGTH);
    EXPECT(on->decode(on->q, K, 1, t, n, page, 2 * K, thresholds, 2, result, K, NULL, 0, difference, K, margins, 4 * K,
                      counts, 16) == QMTD_BAD_LENGTH);
    EXPECT(on->decode(on->q, K, 1, t, n, page, 2 * K, thresholds, 2, result, K, syndrome, K, NULL, 0, margins, 4 * K,
                      counts, 16) == QMTD_BAD_LENGTH);
    EXPECT(on->decode(on->q, K, 1, t, n, page, 2 * K, thresholds, 2, result, K, syndrome, K, difference, K, NULL, 0,
                      counts, 16) == QMTD_BAD_LENGTH);
    EXPECT(on->decode(on->q, K, 1, t, n, page, 2 * K, thresholds, 2, result, K, syndrome, K, difference, K,
                      margins, 4 * K, NULL, 0) == QMTD_BAD_LENGTH);
    EXPECT(on->decode(on->q, K, 1, t, n, NULL, 0, NULL, 0, NULL, 0, NULL, 0, NULL, 0, NULL, 0, NULL, 0) ==
           QMTD_BAD_LENGTH);
    EXPECT(on->decode(on->q, 0, 1, t, n, NULL, 0, NULL, 0, NULL, 0, NULL, 0, NULL, 0, NULL, 0, NULL, 0) == QMTD_BAD_K);
    EXPECT(on->decode(0, 0, 1, NULL, 0, NULL, 0, NULL, 0, NULL, 0, NULL, 0, NULL, 0, NULL, 0, NULL, 0) == QMTD_BAD_Q);

    EXPECT(answers_untouched() && all(page, sizeof page, 0));
}

static void null_in_open_and_pass(void)
{
    const uint8_t *t = table_a;
    const size_t n = sizeof table_a;
    prepare();

    EXPECT(on->open(on->q, K, 1, NULL, 0, page, 2 * K, result, K, syndrome, K, difference, K) == QMTD_BAD_J);
    EXPECT(on->open(on->q, K, 1, t, n, NULL, 0, result, K, syndrome, K, difference, K) == QMTD_BAD_LENGTH);
    EXPECT(on->open(on->q, K, 1, t, n, page, 2 * K, NULL, 0, syndrome, K, difference, K) == QMTD_BAD_LENGTH);
    EXPECT(on->open(on->q, K, 1, t, n, page, 2 * K, result, K, NULL, 0, difference, K) == QMTD_BAD_LENGTH);
    EXPECT(on->open(on->q, K, 1, t, n, page, 2 * K, result, K, syndrome, K, NULL, 0) == QMTD_BAD_LENGTH);
    EXPECT(on->open(on->q, K, 1, t, n, NULL, 0, NULL, 0, NULL, 0, NULL, 0) == QMTD_BAD_LENGTH);
    EXPECT(on->open(on->q, 0, 1, t, n, NULL, 0, NULL, 0, NULL, 0, NULL, 0) == QMTD_BAD_K);
    EXPECT(on->open(0, 0, 1, NULL, 0, NULL, 0, NULL, 0, NULL, 0, NULL, 0) == QMTD_BAD_Q);

    EXPECT(on->pass(on->q, K, 1, NULL, 0, 0, result, K, syndrome, K, difference, K, changes, 4) == QMTD_BAD_J);
    EXPECT(on->pass(on->q, K, 1, t, n, 0, NULL, 0, syndrome, K, difference, K, changes, 4) == QMTD_BAD_LENGTH);
    EXPECT(on->pass(on->q, K, 1, t, n, 0, result, K, NULL, 0, difference, K, changes, 4) == QMTD_BAD_LENGTH);
    EXPECT(on->pass(on->q, K, 1, t, n, 0, result, K, syndrome, K, NULL, 0, changes, 4) == QMTD_BAD_LENGTH);
    EXPECT(on->pass(on->q, K, 1, t, n, 0, result, K, syndrome, K, difference, K, NULL, 0) == QMTD_BAD_LENGTH);
    EXPECT(on->pass(on->q, K, 1, t, n, 0, NULL, 0, NULL, 0, NULL, 0, NULL, 0) == QMTD_BAD_LENGTH);
    EXPECT(on->pass(on->q, 0, 1, t, n, 0, NULL, 0, NULL, 0, NULL, 0, NULL, 0) == QMTD_BAD_K);
    EXPECT(on->pass(0, 0, 1, NULL, 0, 33, NULL, 0, NULL, 0, NULL, 0, NULL, 0) == QMTD_BAD_Q);

    EXPECT(answers_untouched() && all(page, sizeof page, 0));
}

static void null_in_explain(void)
{
    const uint8_t *t = table_a;
    const size_t n = sizeof table_a;
    prepare();

    EXPECT(on->explain(on->q, K, 1, NULL, 0, 0, 0, result, K, syndrome, K, difference, K, answer, 24) == QMTD_BAD_J);
    EXPECT(on->explain(on->q, K, 1, t, n, 0, 0, NULL, 0, syndrome, K, difference, K, answer, 24) == QMTD_BAD_LENGTH);
    EXPECT(on->explain(on->q, K, 1, t, n, 0, 0, result, K, NULL, 0, difference, K, answer, 24) == QMTD_BAD_LENGTH);
    EXPECT(on->explain(on->q, K, 1, t, n, 0, 0, result, K, syndrome, K, NULL, 0, answer, 24) == QMTD_BAD_LENGTH);
    EXPECT(on->explain(on->q, K, 1, t, n, 0, 0, result, K, syndrome, K, difference, K, NULL, 0) == QMTD_BAD_LENGTH);
    EXPECT(on->explain(on->q, K, 1, t, n, 33, K, NULL, 0, NULL, 0, NULL, 0, NULL, 0) == QMTD_BAD_LENGTH);
    EXPECT(on->explain(on->q, 0, 1, t, n, 33, K, NULL, 0, NULL, 0, NULL, 0, NULL, 0) == QMTD_BAD_K);
    EXPECT(on->explain(0, 0, 1, NULL, 0, 33, K, NULL, 0, NULL, 0, NULL, 0, NULL, 0) == QMTD_BAD_Q);

    EXPECT(answers_untouched() && all(page, sizeof page, 0));
}

static void null_in_decode_counters(void)
{
    const uint8_t *t = table_a;
    const size_t n = sizeof table_a;
    prepare();

    EXPECT(qmtd_decode_counters(5, K, 1, NULL, 0, page, 2 * K, thresholds, 2, result, K, syndrome, K, difference, K,
                                margins, 4 * K, counters, 256, counts, 16) == QMTD_BAD_J);
    EXPECT(qmtd_decode_counters(5, K, 1, t, n, NULL, 0, thresholds, 2, result, K, syndrome, K, difference, K,
                                margins, 4 * K, counters, 256, counts, 16) == QMTD_BAD_LENGTH);
    EXPECT(qmtd_decode_counters(5, K, 1, t, n, page, 2 * K, NULL, 0, result, K, syndrome, K, difference, K,
                                margins, 4 * K, counters, 256, counts, 16) == QMTD_BAD_THRESHOLD_COUNT);
    EXPECT(qmtd_decode_counters(5, K, 1, t, n, page, 2 * K, thresholds, 2, NULL, 0, syndrome, K, difference, K,
                                margins, 4 * K, counters, 256, counts, 16) == QMTD_BAD_LENGTH);
    EXPECT(qmtd_decode_counters(5, K, 1, t, n, page, 2 * K, thresholds, 2, result, K, NULL, 0, difference, K,
                                margins, 4 * K, counters, 256, counts, 16) == QMTD_BAD_LENGTH);
    EXPECT(qmtd_decode_counters(5, K, 1, t, n, page, 2 * K, thresholds, 2, result, K, syndrome, K, NULL, 0,
                                margins, 4 * K, counters, 256, counts, 16) == QMTD_BAD_LENGTH);
    EXPECT(qmtd_decode_counters(5, K, 1, t, n, page, 2 * K, thresholds, 2, result, K, syndrome, K, difference, K,
                                NULL, 0, counters, 256, counts, 16) == QMTD_BAD_LENGTH);
    EXPECT(qmtd_decode_counters(5, K, 1, t, n, page, 2 * K, thresholds, 2, result, K, syndrome, K, difference, K,
                                margins, 4 * K, NULL, 0, counts, 16) == QMTD_BAD_LENGTH);
    EXPECT(qmtd_decode_counters(5, K, 1, t, n, page, 2 * K, thresholds, 2, result, K, syndrome, K, difference, K,
                                margins, 4 * K, counters, 256, NULL, 0) == QMTD_BAD_LENGTH);
    EXPECT(qmtd_decode_counters(5, K, 1, t, n, NULL, 0, NULL, 0, NULL, 0, NULL, 0, NULL, 0, NULL, 0, NULL, 0,
                                NULL, 0) == QMTD_BAD_LENGTH);
    EXPECT(qmtd_decode_counters(5, 0, 1, t, n, NULL, 0, NULL, 0, NULL, 0, NULL, 0, NULL, 0, NULL, 0, NULL, 0,
                                NULL, 0) == QMTD_BAD_K);
    EXPECT(qmtd_decode_counters(0, 0, 1, NULL, 0, NULL, 0, NULL, 0, NULL, 0, NULL, 0, NULL, 0, NULL, 0, NULL, 0,
                                NULL, 0) == QMTD_BAD_Q);

    EXPECT(answers_untouched() && counters_zero() && all(page, sizeof page, 0));
}

static void null_in_outer(void)
{
    const uint8_t *t = table_a;
    const size_t n = sizeof table_a;
    prepare();

    for (uint32_t block = 0; block <= K; block += K) {
        EXPECT(qmtd_encode_outer(5, K, 1, NULL, 0, block, data, K, page, 2 * K) == QMTD_BAD_J);
        EXPECT(qmtd_encode_outer(5, K, 1, t, n, block, NULL, 0, page, 2 * K) == QMTD_BAD_LENGTH);
        EXPECT(qmtd_encode_outer(5, K, 1, t, n, block, data, K, NULL, 0) == QMTD_BAD_LENGTH);
        EXPECT(qmtd_encode_outer(5, K, 1, t, n, block, NULL, 0, NULL, 0) == QMTD_BAD_LENGTH);
        EXPECT(qmtd_encode_outer(5, 0, 1, t, n, block, NULL, 0, NULL, 0) == QMTD_BAD_K);
        EXPECT(qmtd_encode_outer(0, 0, 1, NULL, 0, block, NULL, 0, NULL, 0) == QMTD_BAD_Q);

        EXPECT(qmtd_decode_outer(5, K, 1, NULL, 0, block, page, 2 * K, thresholds, 2, result, K, syndrome, K,
                                 difference, K, margins, 4 * K, counts, 16) == QMTD_BAD_J);
        EXPECT(qmtd_decode_outer(5, K, 1, t, n, block, NULL, 0, thresholds, 2, result, K, syndrome, K,
                                 difference, K, margins, 4 * K, counts, 16) == QMTD_BAD_LENGTH);
        EXPECT(qmtd_decode_outer(5, K, 1, t, n, block, page, 2 * K, NULL, 0, result, K, syndrome, K,
                                 difference, K, margins, 4 * K, counts, 16) == QMTD_BAD_THRESHOLD_COUNT);
        EXPECT(qmtd_decode_outer(5, K, 1, t, n, block, page, 2 * K, thresholds, 2, NULL, 0, syndrome, K,
                                 difference, K, margins, 4 * K, counts, 16) == QMTD_BAD_LENGTH);
        EXPECT(qmtd_decode_outer(5, K, 1, t, n, block, page, 2 * K, thresholds, 2, result, K, NULL, 0,
                                 difference, K, margins, 4 * K, counts, 16) == QMTD_BAD_LENGTH);
        EXPECT(qmtd_decode_outer(5, K, 1, t, n, block, page, 2 * K, thresholds, 2, result, K, syndrome, K,
                                 NULL, 0, margins, 4 * K, counts, 16) == QMTD_BAD_LENGTH);
        EXPECT(qmtd_decode_outer(5, K, 1, t, n, block, page, 2 * K, thresholds, 2, result, K, syndrome, K,
                                 difference, K, NULL, 0, counts, 16) == QMTD_BAD_LENGTH);
        EXPECT(qmtd_decode_outer(5, K, 1, t, n, block, page, 2 * K, thresholds, 2, result, K, syndrome, K,
                                 difference, K, margins, 4 * K, NULL, 0) == QMTD_BAD_LENGTH);
        EXPECT(qmtd_decode_outer(5, K, 1, t, n, block, NULL, 0, NULL, 0, NULL, 0, NULL, 0, NULL, 0, NULL, 0,
                                 NULL, 0) == QMTD_BAD_LENGTH);
        EXPECT(qmtd_decode_outer(5, 0, 1, t, n, block, NULL, 0, NULL, 0, NULL, 0, NULL, 0, NULL, 0, NULL, 0,
                                 NULL, 0) == QMTD_BAD_K);
        EXPECT(qmtd_decode_outer(0, 0, 1, NULL, 0, block, NULL, 0, NULL, 0, NULL, 0, NULL, 0, NULL, 0, NULL, 0,
                                 NULL, 0) == QMTD_BAD_Q);
    }
    EXPECT(answers_untouched() && all(page, sizeof page, 0));
}

/* The counts are a lent buffer like the others: 6, after 1 to 5 and before 7 to 9. */
static void counts_length(void)
{
    static const uint8_t not_orthogonal[] = {0, 0, 1, 0, 2, 0};
    static const size_t wrong[] = {0, 1, 4, 15, 17, 32};
    uint8_t list[65] = {33};
    for (size_t i = 0; i < sizeof wrong / sizeof wrong[0]; i++) {
        size_t len = wrong[i];
        uint8_t *block = malloc(len + 1);
        if (block == NULL)
            abort();
        memset(block, 0xEE, len + 1);
        prepare();
        EXPECT(on->decode(on->q, K, 1, table_a, sizeof table_a, page, sizeof page, thresholds, 2, result, K,
                          syndrome, K, difference, K, margins, sizeof margins, block, len) == QMTD_BAD_LENGTH);
        if (on == &byte_pages)
            EXPECT(qmtd_decode_outer(5, K, 1, table_a, sizeof table_a, K, page, sizeof page, thresholds, 2, result, K,
                                     syndrome, K, difference, K, margins, sizeof margins, block, len) ==
                   QMTD_BAD_LENGTH);
        EXPECT(all(block, len + 1, 0xEE));
        free(block);
    }
    prepare();
    EXPECT(decode(not_orthogonal, sizeof not_orthogonal, sizeof page, thresholds, 2, 15) == QMTD_NOT_SELF_ORTHOGONAL);
    EXPECT(decode(table_a, 7, sizeof page, thresholds, 2, 15) == QMTD_BAD_J);
    EXPECT(decode(table_a, sizeof table_a, sizeof page, list, 0, 15) == QMTD_BAD_LENGTH);
    EXPECT(decode(table_a, sizeof table_a, sizeof page, list, 65, 15) == QMTD_BAD_LENGTH);
    EXPECT(decode(table_a, sizeof table_a, sizeof page, list, 1, 15) == QMTD_BAD_LENGTH);
    EXPECT(on->decode(on->q, K, 1, table_a, sizeof table_a, page, sizeof page, thresholds, 2, result, K, syndrome, K,
                      difference, K, margins, sizeof margins - 1, counts, 15) == QMTD_BAD_LENGTH);
    page[3] = 5;
    EXPECT(decode(table_a, sizeof table_a, sizeof page, thresholds, 2, 15) == QMTD_BAD_LENGTH);
    EXPECT(decode(table_a, sizeof table_a, sizeof page, thresholds, 2, 16) == QMTD_BAD_SYMBOL);
    EXPECT(answers_untouched());
}

/* 6 unless there are 256 counters and all are 0: after 1 to 5 and 10, before 7 to 9. What they hold stays. */
static void counters_lent(void)
{
    static const uint8_t not_orthogonal[] = {0, 0, 1, 0, 2, 0}, bad[] = {33}, values[] = {1, 128, 255};
    static uint8_t zeros[2 * QMTD_COUNTERS_LEN + 1];
    const size_t n = sizeof table_a;
    prepare();

    for (size_t len = 0; len <= sizeof zeros; len++)
        if (len != QMTD_COUNTERS_LEN)
            EXPECT(decode_counters(table_a, n, sizeof page, thresholds, 2, zeros, len, 16) == QMTD_BAD_LENGTH);
    EXPECT(answers_untouched() && all(zeros, sizeof zeros, 0));

    for (size_t place = 0; place < QMTD_COUNTERS_LEN; place++)
        for (size_t i = 0; i < sizeof values; i++) {
            counters[place] = values[i];
            EXPECT(decode_counters(table_a, n, sizeof page, thresholds, 2, counters, 256, 16) == QMTD_BAD_LENGTH);
            EXPECT(counters[place] == values[i]);
            counters[place] = 0;
            EXPECT(counters_zero());
        }
    EXPECT(answers_untouched());

    /* Counters as they must be, then not, with something else amiss. */
    for (int amiss = 0; amiss < 2; amiss++) {
        counters[255] = (uint8_t)amiss;
        EXPECT(decode_counters(table_a, 7, sizeof page, bad, 1, counters, 256, 16) == QMTD_BAD_J);
        EXPECT(decode_counters(not_orthogonal, sizeof not_orthogonal, sizeof page, bad, 1, counters, 256, 16) ==
               QMTD_NOT_SELF_ORTHOGONAL);
        EXPECT(decode_counters(table_a, n, sizeof page, bad, 1, counters, 256, 15) == QMTD_BAD_LENGTH);
        EXPECT(decode_counters(table_a, n, sizeof page - 1, bad, 1, counters, 256, 16) == QMTD_BAD_LENGTH);
        EXPECT(decode_counters(table_a, n, sizeof page, bad, 1, counters, 256, 16) ==
               (amiss ? QMTD_BAD_LENGTH : QMTD_BAD_THRESHOLD));
        EXPECT(decode_counters(table_a, n, sizeof page, bad, 0, counters, 256, 16) ==
               (amiss ? QMTD_BAD_LENGTH : QMTD_BAD_THRESHOLD_COUNT));
        page[3] = 5;
        EXPECT(decode_counters(table_a, n, sizeof page, bad, 0, counters, 256, 16) ==
               (amiss ? QMTD_BAD_LENGTH : QMTD_BAD_SYMBOL));
        page[3] = 0;
        EXPECT(counters[255] == amiss && answers_untouched());
    }
    counters[255] = 0;
    EXPECT(decode_counters(table_a, n, sizeof page, thresholds, 2, counters, 256, 16) == QMTD_OK);
    EXPECT(counters_zero() && all(result, K, 0) && qmtd_number(counts) == 1);
    EXPECT(QMTD_COUNTERS_LEN == 256);
}

/* 12 unless the block length is 2 or more and divides the number of data symbols: for every length up to twice that
 * number, and for some that have its low bits; after 1 to 10. */
static void block_lengths(void)
{
    static const uint32_t large[] = {256 + K, 65536 + K, 0x7FFFFFFF, 0x80000000, 0x80000000 + K, 0xFFFFFFFF - K,
                                     0xFFFFFFFE, 0xFFFFFFFF};
    static const uint8_t not_orthogonal[] = {0, 0, 1, 0, 2, 0}, bad[] = {33};
    enum { N = 3 * 40 };
    static uint8_t sent[N], written[N + 40];
    const size_t n = sizeof table_a;

    for (uint32_t block = 0; block <= 2 * N; block++) {
        const uint32_t due = block >= QMTD_MIN_BLOCK && N % block == 0 ? QMTD_OK : QMTD_BAD_BLOCK;
        memset(written, 0xEE, sizeof written);
        EXPECT(qmtd_encode_outer(5, 40, 3, table_3, sizeof table_3, block, sent, N, written, sizeof written) == due);
        EXPECT(all(written, sizeof written, due == QMTD_OK ? 0 : 0xEE));
    }
    prepare();
    for (uint32_t block = 0; block < 2 * K + 3; block++)
        if (block != K) {
            EXPECT(qmtd_encode_outer(5, K, 1, table_a, n, block, data, K, page, sizeof page) == QMTD_BAD_BLOCK);
            EXPECT(decode_outer(table_a, n, block, sizeof page, thresholds, 2, 16) == QMTD_BAD_BLOCK);
        }
    for (size_t i = 0; i < sizeof large / sizeof large[0]; i++) {
        EXPECT(qmtd_encode_outer(5, K, 1, table_a, n, large[i], data, K, page, sizeof page) == QMTD_BAD_BLOCK);
        EXPECT(decode_outer(table_a, n, large[i], sizeof page, thresholds, 2, 16) == QMTD_BAD_BLOCK);
    }

    /* A block length as it must be, then not, with something else amiss. */
    for (uint32_t block = K;; block = 0) {
        EXPECT(decode_outer(table_a, 7, block, sizeof page, bad, 1, 16) == QMTD_BAD_J);
        EXPECT(decode_outer(not_orthogonal, sizeof not_orthogonal, block, sizeof page, bad, 1, 16) ==
               QMTD_NOT_SELF_ORTHOGONAL);
        EXPECT(decode_outer(table_a, n, block, sizeof page, bad, 1, 15) == QMTD_BAD_LENGTH);
        EXPECT(decode_outer(table_a, n, block, sizeof page - 1, bad, 1, 16) == QMTD_BAD_LENGTH);
        EXPECT(decode_outer(table_a, n, block, sizeof page, bad, 1, 16) == QMTD_BAD_THRESHOLD);
        EXPECT(decode_outer(table_a, n, block, sizeof page, bad, 0, 16) == QMTD_BAD_THRESHOLD_COUNT);
        EXPECT(qmtd_encode_outer(5, K, 1, table_a, n, block, data, K, page, 0) == QMTD_BAD_LENGTH);
        page[3] = data[K - 1] = 5;
        EXPECT(decode_outer(table_a, n, block, sizeof page, bad, 0, 16) == QMTD_BAD_SYMBOL);
        EXPECT(qmtd_encode_outer(5, K, 1, table_a, n, block, data, K, page, sizeof page) == QMTD_BAD_SYMBOL);
        page[3] = data[K - 1] = 0;
        if (block == 0)
            break;
    }
    EXPECT(answers_untouched() && all(page, sizeof page, 0));
    EXPECT(decode_outer(table_a, n, K, sizeof page, thresholds, 2, 16) == QMTD_OK);
    EXPECT(all(result, K, 0) && qmtd_number(counts) == 1 && all(counts + 4, 12, 0));
    EXPECT(QMTD_BAD_BLOCK == 12 && QMTD_MIN_BLOCK == 2);
}

static void odd_table(void)
{
    static const uint8_t long_table[67] = {0};
    prepare();
    for (size_t len = 1; len < sizeof long_table; len += 2) {
        EXPECT(on->check_table(on->q, K, 1, long_table, len) == QMTD_BAD_J);
        EXPECT(decode(long_table, len, sizeof page, thresholds, 2, sizeof counts) == QMTD_BAD_J);
    }
    EXPECT(on->check_table(on->other_q, K, 1, table_a, 7) == QMTD_BAD_Q);
    EXPECT(on->check_table(on->q, QMTD_MAX_K + 1, 1, table_a, 7) == QMTD_BAD_K);
    EXPECT(on->encode(on->q, K, 1, table_a, 7, data, 0, page, 0) == QMTD_BAD_J);
    EXPECT(on->syndrome(on->q, K, 1, table_a, 7, page, 0, syndrome, 0) == QMTD_BAD_J);
    EXPECT(decode_counters(table_a, 7, 0, thresholds, 0, counters, 0, 0) == QMTD_BAD_J);
    EXPECT(qmtd_encode_outer(5, K, 1, table_a, 7, 0, data, 0, page, 0) == QMTD_BAD_J);
    EXPECT(decode_outer(table_a, 7, 0, 0, thresholds, 0, 0) == QMTD_BAD_J);
    EXPECT(on->open(on->q, K, 1, table_a, 7, page, 0, result, 0, syndrome, 0, difference, 0) == QMTD_BAD_J);
    EXPECT(on->pass(on->q, K, 1, table_a, 7, 33, result, 0, syndrome, 0, difference, 0, changes, 0) == QMTD_BAD_J);
    EXPECT(on->explain(on->q, K, 1, table_a, 7, 33, K, result, 0, syndrome, 0, difference, 0, answer, 0) == QMTD_BAD_J);
    EXPECT(answers_untouched());
}

/* Every name against the number of document 01 and a call that meets it; every limit on both sides. */
static void names(void)
{
    static const uint8_t descending[] = {0, 0, 1, 0, 6, 0, 4, 0}, not_orthogonal[] = {0, 0, 1, 0, 2, 0};
    static const uint8_t zeros[QMTD_TABLE_LEN(1, QMTD_MAX_J + 1)] = {0};
    const size_t n = sizeof table_a;
    uint8_t list[QMTD_MAX_THRESHOLDS + 1] = {0};
    prepare();

    EXPECT(QMTD_BAD_Q == 1 && qmtd_check_table(QMTD_MIN_Q - 1, K, 1, table_a, n) == QMTD_BAD_Q);
    EXPECT(qmtd_check_table(QMTD_MAX_Q + 1, K, 1, table_a, n) == QMTD_BAD_Q);
    EXPECT(QMTD_BAD_K == 2 && qmtd_check_table(5, QMTD_MIN_K - 1, 1, table_a, n) == QMTD_BAD_K);
    EXPECT(qmtd_check_table(5, QMTD_MAX_K + 1, 1, table_a, n) == QMTD_BAD_K);
    EXPECT(QMTD_BAD_J == 3 && qmtd_check_table(5, K, 1, zeros, QMTD_TABLE_LEN(1, QMTD_MIN_J - 1)) == QMTD_BAD_J);
    EXPECT(qmtd_check_table(5, K, 1, zeros, QMTD_TABLE_LEN(1, QMTD_MAX_J + 1)) == QMTD_BAD_J);
    EXPECT(qmtd_check_table(5, K, 1, zeros, QMTD_TABLE_LEN(1, QMTD_MAX_J)) == QMTD_BAD_POSITION);
    EXPECT(QMTD_BAD_POSITION == 4 && qmtd_check_table(5, K, 1, descending, sizeof descending) == QMTD_BAD_POSITION);
    EXPECT(QMTD_NOT_SELF_ORTHOGONAL == 5 &&
           qmtd_check_table(5, K, 1, not_orthogonal, sizeof not_orthogonal) == QMTD_NOT_SELF_ORTHOGONAL);
    EXPECT(QMTD_BAD_LENGTH == 6 && decode(table_a, n, sizeof page - 1, list, 1, sizeof counts) == QMTD_BAD_LENGTH);
    page[2 * K - 1] = 5;
    EXPECT(QMTD_BAD_SYMBOL == 7 && decode(table_a, n, sizeof page, list, 1, sizeof counts) == QMTD_BAD_SYMBOL);
    page[2 * K - 1] = 0;
    EXPECT(QMTD_BAD_THRESHOLD_COUNT == 8 && decode(table_a, n, sizeof page, list, QMTD_MIN_THRESHOLDS - 1,
                                                   sizeof counts) == QMTD_BAD_THRESHOLD_COUNT);
    EXPECT(decode(table_a, n, sizeof page, list, QMTD_MAX_THRESHOLDS + 1, sizeof counts) == QMTD_BAD_THRESHOLD_COUNT);
    list[0] = QMTD_MAX_THRESHOLD + 1;
    EXPECT(QMTD_BAD_THRESHOLD == 9 && decode(table_a, n, sizeof page, list, 1, sizeof counts) == QMTD_BAD_THRESHOLD);
    EXPECT(answers_untouched());

    EXPECT(QMTD_OK == 0 && qmtd_check_table(QMTD_MIN_Q, K, 1, table_a, n) == QMTD_OK);
    EXPECT(qmtd_check_table(QMTD_MAX_Q, K, 1, table_a, n) == QMTD_OK);
    EXPECT(qmtd_check_table(5, QMTD_MIN_K, 1, zeros, QMTD_TABLE_LEN(1, QMTD_MIN_J)) == QMTD_OK);
    EXPECT(qmtd_check_table(5, QMTD_MAX_K, 1, table_a, n) == QMTD_OK);
    list[0] = QMTD_MAX_THRESHOLD;
    EXPECT(decode(table_a, n, sizeof page, list, QMTD_MIN_THRESHOLDS, sizeof counts) == QMTD_OK);
    EXPECT(decode(table_a, n, sizeof page, list, QMTD_MAX_THRESHOLDS, sizeof counts) == QMTD_OK);
}

/* The header's two bytes of a position: as written out, and in a table that is taken, positions above 255 among it. */
static void position_bytes(void)
{
    static const uint8_t made[] = {QMTD_POSITION(0), QMTD_POSITION(1), QMTD_POSITION(255), QMTD_POSITION(256),
                                   QMTD_POSITION(260), QMTD_POSITION(511), QMTD_POSITION(512), QMTD_POSITION(4095)};
    static const uint8_t due[] = {0, 0, 1, 0, 255, 0, 0, 1, 4, 1, 255, 1, 0, 2, 255, 15};
    static const uint8_t two[QMTD_TABLE_LEN(2, 3)] = {QMTD_POSITION(0), QMTD_POSITION(260), QMTD_POSITION(511),
                                                      QMTD_POSITION(8), QMTD_POSITION(300), QMTD_POSITION(413)};
    static const uint8_t last[] = {QMTD_POSITION(0), QMTD_POSITION(QMTD_MAX_K - 1)};
    EXPECT(sizeof made == sizeof due && memcmp(made, due, sizeof due) == 0);
    EXPECT(qmtd_check_table(256, 512, 2, two, sizeof two) == QMTD_OK);
    EXPECT(qmtd_check_table(256, 511, 2, two, sizeof two) == QMTD_BAD_POSITION);
    EXPECT(qmtd_check_table(256, QMTD_MAX_K, 1, last, sizeof last) == QMTD_OK);
    EXPECT(qmtd_check_table(256, QMTD_MAX_K - 1, 1, last, sizeof last) == QMTD_BAD_POSITION);
}

/* The header's reading of a number, at every distance from an aligned address. */
static void number_bytes(void)
{
    static const uint8_t bytes[] = {0, 0, 0, 0, 0xFF, 0xFF, 0xFF, 0xFF, 0xFF, 0xFF, 0xFF, 0x7F, 0, 0, 0, 0x80,
                                    1, 2, 3, 4};
    static const uint32_t numbers[] = {0, 0xFF000000, 0xFFFF0000, 0xFFFFFF00, 0xFFFFFFFF, 0xFFFFFFFF, 0xFFFFFFFF,
                                       0xFFFFFFFF, 0x7FFFFFFF, 0x007FFFFF, 0x00007FFF, 0x0000007F, 0x80000000,
                                       0x01800000, 0x02018000, 0x03020180, 0x04030201};
    EXPECT(sizeof bytes == sizeof numbers / sizeof numbers[0] + 3);
    for (size_t i = 0; i < sizeof numbers / sizeof numbers[0]; i++)
        EXPECT(qmtd_number(bytes + i) == numbers[i]);
}

/* The header's reading of a margin, and its lengths. */
static void margin_bytes(void)
{
    static const uint8_t bytes[] = {33, 0, 0, 0, 0xDF, 0xFF, 0xFF, 0xFF, 0, 0, 0, 0, 0xFF, 0xFF, 0xFF, 0xFF,
                                    1, 2, 3, 4, 0xFF, 0xFF, 0xFF, 0x7F, 0, 0, 0, 0x80};
    static const int32_t numbers[] = {33, -33, 0, -1, 67305985, INT32_MAX, INT32_MIN};
    for (size_t i = 0; i < sizeof numbers / sizeof numbers[0]; i++)
        EXPECT(qmtd_margin(bytes, i) == numbers[i]);
    EXPECT(QMTD_MARGIN_LEN == 4 && sizeof bytes == QMTD_MARGINS_LEN(sizeof numbers / sizeof numbers[0], 1));
}

/* Case 9 of document 01, decoded without counters and with them, explained and by one pass, and a page with an outer
 * check, with every piece at every distance from an aligned address. */
static void unaligned(void)
{
    static const uint8_t case_9_counts[QMTD_COUNTS_LEN] = {2, 0, 0, 0, 2, 0, 0, 0, 7, 0, 0, 0, 2, 0, 0, 0};
    static const uint8_t case_9_answer[QMTD_ANSWER_LEN] = {[0] = 3, [4] = 7, [8] = 3, [12] = 1, [16] = 26};
    enum { ROOM = 80 };
    static union {
        uint64_t alignment;
        uint8_t bytes[8][ROOM], counters[QMTD_COUNTERS_LEN + 16];
    } memory, lent;
    for (size_t shift = 0; shift < 16; shift++) {
        uint8_t *at[8];
        memset(memory.bytes, 0, sizeof memory.bytes);
        for (size_t i = 0; i < 8; i++)
            at[i] = memory.bytes[i] + (shift + i) % 16;
        memcpy(at[0], table_a, sizeof table_a);
        at[1][0] = 7;
        at[1][1] = 3;
        for (int counted = 0; counted < 2; counted++) {
            for (size_t i = 3; i < 8; i++)
                memset(memory.bytes[i], 0xEE, ROOM);
            uint32_t number = counted ? qmtd_decode_counters(256, K, 1, at[0], sizeof table_a, at[1], 2 * K, at[2], 2,
                                                             at[3], K, at[4], K, at[5], K, at[6],
                                                             QMTD_MARGINS_LEN(K, 1), lent.counters + shift,
                                                             QMTD_COUNTERS_LEN, at[7], QMTD_COUNTS_LEN)
                                      : qmtd_decode(256, K, 1, at[0], sizeof table_a, at[1], 2 * K, at[2], 2, at[3], K,
                                                    at[4], K, at[5], K, at[6], QMTD_MARGINS_LEN(K, 1), at[7],
                                                    QMTD_COUNTS_LEN);
            EXPECT(number == QMTD_OK && all(at[3], K, 0) && all(at[4], K, 0));
            EXPECT(at[5][0] == 249 && at[5][1] == 253 && all(at[5] + 2, K - 2, 0));
            /* d(0) and d(1) are all that is not 0. */
            for (size_t j = 0; j < K; j++)
                EXPECT(qmtd_margin(at[6], j) == (j < 2 ? J - 1 : J + 1));
            EXPECT(memcmp(at[7], case_9_counts, sizeof case_9_counts) == 0);
            EXPECT(all(lent.counters, sizeof lent.counters, 0));
        }

        EXPECT(qmtd_open(256, K, 1, at[0], sizeof table_a, at[1], 2 * K, at[3], K, at[4], K, at[5], K) == QMTD_OK);
        EXPECT(memcmp(at[3], at[1], K) == 0 && all(at[5], K, 0));
        /* The estimates of symbol 0 are 0, 7, 10, 7, 7. */
        EXPECT(qmtd_explain(256, K, 1, at[0], sizeof table_a, 1, 0, at[3], K, at[4], K, at[5], K, at[7],
                            QMTD_ANSWER_LEN) == QMTD_OK);
        EXPECT(memcmp(at[7], case_9_answer, sizeof case_9_answer) == 0);
        EXPECT(qmtd_pass(256, K, 1, at[0], sizeof table_a, 0, at[3], K, at[4], K, at[5], K, at[6],
                         QMTD_CHANGES_LEN) == QMTD_OK);
        EXPECT(all(at[3], K, 0) && all(at[4], K, 0) && at[5][0] == 249 && at[5][1] == 253 && all(at[5] + 2, K - 2, 0));
        EXPECT(qmtd_number(at[6]) == 2);

        EXPECT(qmtd_syndrome(256, K, 1, at[0], sizeof table_a, at[1], 2 * K, at[4], K) == QMTD_OK);
        EXPECT(at[4][0] == 7 && at[4][1] == 10 && at[4][2] == 3 && at[4][5] == 3);

        /* As one block of K symbols: what is lent at its last place is ignored, and the data sent comes back. */
        at[3][0] = 3;
        at[3][K - 1] = 99;
        EXPECT(qmtd_encode_outer(256, K, 1, at[0], sizeof table_a, K, at[3], K, at[1], 2 * K) == QMTD_OK);
        EXPECT(at[1][0] == 3 && at[1][K - 1] == 253 && at[1][K] == 0 && at[1][K + 1] == 3 && at[1][K + 3] == 253);
        at[1][K + 1] = 0;
        EXPECT(qmtd_decode_outer(256, K, 1, at[0], sizeof table_a, K, at[1], 2 * K, at[2], 2, at[3], K, at[4], K,
                                 at[5], K, at[6], QMTD_MARGINS_LEN(K, 1), at[7], QMTD_COUNTS_LEN) == QMTD_OK);
        EXPECT(memcmp(at[3], at[1], K) == 0 && all(at[5], K, 0) && at[4][1] == 3 && qmtd_number(at[7] + 4) == 0);
        memset(at[3], 0, K);
        EXPECT(qmtd_encode(256, K, 1, at[0], sizeof table_a, at[3], K, at[1], 2 * K) == QMTD_OK);
        EXPECT(all(at[1], 2 * K, 0));
    }
}

/* Case 7 of document 01 with the numbers of request N4, on bits with a 1 for its 7, and clean pages. After an idle pass
 * comes the first later one whose threshold is smaller; the others are not counted. */
static void falling_thresholds(void)
{
    static const struct {
        uint8_t len, list[7], passes, changes;
    } lists[] = {
        {2, {3, 2}, 2, 1},           {3, {3, 3, 2}, 2, 1},          {1, {3}, 1, 0},
        {2, {3, 4}, 1, 0},           {4, {4, 5, 3, 2}, 3, 1},       {3, {3, 2, 0}, 3, 1},
        {5, {3, 2, 2, 2, 1}, 4, 1},  {5, {2, 3, 3, 1, 1}, 3, 1},    {7, {3, 2, 5, 4, 4, 3, 3}, 5, 1},
    }, clean[] = {
        {5, {3, 3, 2, 0, 0}, 3, 0},  {3, {0, 0, 0}, 1, 0},          {3, {1, 2, 3}, 1, 0},
        {4, {2, 1, 2, 0}, 3, 0},     {7, {32, 31, 16, 8, 8, 9, 7}, 5, 0},
    };
    for (size_t i = 0; i < sizeof lists / sizeof lists[0]; i++) {
        prepare();
        page[0] = on->symbol;
        EXPECT(on->decode(on->most_q, K, 1, table_a, sizeof table_a, page, sizeof page, lists[i].list, lists[i].len,
                          result, K, syndrome, K, difference, K, margins, sizeof margins, counts, sizeof counts) ==
               QMTD_OK);
        EXPECT(result[0] == (lists[i].changes ? 0 : on->symbol) && all(result + 1, K - 1, 0));
        EXPECT(qmtd_number(counts) == lists[i].passes && qmtd_number(counts + 4) == lists[i].changes);
        EXPECT(qmtd_number(counts + 8) == 4 && qmtd_number(counts + 12) == (lists[i].changes ? 1 : 4));
    }
    for (size_t i = 0; i < sizeof clean / sizeof clean[0]; i++) {
        prepare();
        EXPECT(decode(table_a, sizeof table_a, sizeof page, clean[i].list, clean[i].len, sizeof counts) == QMTD_OK);
        EXPECT(qmtd_number(counts) == clean[i].passes && all(counts + 4, 12, 0));
    }
}

/* The page of case 7 opened, then passes on the same buffers, refused ones between those that are made. Each gets what
 * the last one left. */
static void one_by_one(void)
{
    static const struct {
        uint32_t threshold;
        uint64_t difference_len, changes_len;
        uint32_t number;
        uint8_t changes, right; /* is symbol 0 put right after it? */
    } calls[] = {
        {33, K, 4, QMTD_BAD_THRESHOLD, 0xEE, 0},   {3, K, 4, QMTD_OK, 0, 0},
        {0, K - 1, 4, QMTD_BAD_LENGTH, 0xEE, 0},   {0, K, 3, QMTD_BAD_LENGTH, 0xEE, 0},
        {0, K, 0, QMTD_BAD_LENGTH, 0xEE, 0},       {0xFFFFFFFF, K, 4, QMTD_BAD_THRESHOLD, 0xEE, 0},
        {2, K, 4, QMTD_OK, 1, 1},                  {33, K, 3, QMTD_BAD_LENGTH, 0xEE, 1},
        {0, K, 4, QMTD_OK, 0, 1},
    };
    const uint8_t h = on->symbol;
    prepare();
    page[0] = h;
    EXPECT(on->open(on->most_q, K, 1, table_a, sizeof table_a, page, sizeof page, result, K, syndrome, K,
                    difference, K) == QMTD_OK);
    EXPECT(all(difference, K, 0) && syndrome[0] == h && syndrome[1] == h && syndrome[4] == h && syndrome[6] == h);
    for (size_t i = 0; i < sizeof calls / sizeof calls[0]; i++) {
        memset(changes, 0xEE, sizeof changes);
        EXPECT(on->pass(on->most_q, K, 1, table_a, sizeof table_a, calls[i].threshold, result, K, syndrome, K,
                        difference, calls[i].difference_len, changes, calls[i].changes_len) == calls[i].number);
        EXPECT(changes[0] == calls[i].changes && all(changes + 1, 3, calls[i].number == QMTD_OK ? 0 : 0xEE));
        EXPECT(result[0] == (calls[i].right ? 0 : h) && difference[0] == (calls[i].right ? on->most_q - h : 0));
        EXPECT(all(result + 1, K - 1, 0) && all(difference + 1, K - 1, 0));
        EXPECT(calls[i].right ? all(syndrome, K, 0) : syndrome[0] == h);
    }
    EXPECT(QMTD_CHANGES_LEN == 4 && sizeof changes == QMTD_CHANGES_LEN);
}

/* The page of case 7 opened, and symbols explained before a pass and after it. S is 7, or 1 on bits, at the four checks
 * of symbol 0, which are 0, 1, 4, 6, and each other symbol has one of them at most. h0 is that number or 0. */
static void explanations(void)
{
    static const struct {
        uint32_t threshold, symbol, number;
        uint8_t ground, leads, m0, m1, bits; /* does that number lead, or 0? */
    } opened_asked[] = {
        {2, 0, QMTD_OK, QMTD_GROUND_CHANGE, 1, 4, 1, 0x1E}, {3, 0, QMTD_OK, QMTD_GROUND_NO_LEAD, 1, 4, 1, 0x1E},
        {2, 1, QMTD_OK, QMTD_GROUND_ZERO, 0, 4, 1, 0x1D},   {32, 7, QMTD_OK, QMTD_GROUND_NO_LEAD, 0, 4, 1, 0x0F},
        {0, 12, QMTD_OK, QMTD_GROUND_ZERO, 0, 4, 1, 0x1B},  {0, 13, QMTD_BAD_SYMBOL_NUMBER, 0, 0, 0, 0, 0},
        {32, 256, QMTD_BAD_SYMBOL_NUMBER, 0, 0, 0, 0, 0},   {0, 0xFFFFFFFF, QMTD_BAD_SYMBOL_NUMBER, 0, 0, 0, 0, 0},
        {33, 0, QMTD_BAD_THRESHOLD, 0, 0, 0, 0, 0},         {0xFFFFFFFF, 13, QMTD_BAD_THRESHOLD, 0, 0, 0, 0, 0},
    }, passed_asked[] = {
        {2, 0, QMTD_OK, QMTD_GROUND_ZERO, 0, 4, 1, 0x1E},   {3, 0, QMTD_OK, QMTD_GROUND_NO_LEAD, 0, 4, 1, 0x1E},
        {4, 1, QMTD_OK, QMTD_GROUND_ZERO, 0, 5, 0, 0x1F},   {5, 1, QMTD_OK, QMTD_GROUND_NO_LEAD, 0, 5, 0, 0x1F},
    }, *asked;
    size_t count = sizeof opened_asked / sizeof opened_asked[0];
    const uint8_t h = on->symbol;
    asked = opened_asked;
    prepare();
    page[0] = h;
    EXPECT(on->open(on->most_q, K, 1, table_a, sizeof table_a, page, sizeof page, result, K, syndrome, K,
                    difference, K) == QMTD_OK);
    for (int passed = 0; passed < 2; passed++) {
        for (size_t i = 0; i < count; i++) {
            memset(answer, 0xEE, sizeof answer);
            EXPECT(on->explain(on->most_q, K, 1, table_a, sizeof table_a, asked[i].threshold, asked[i].symbol,
                               result, K, syndrome, K, difference, K, answer, sizeof answer) == asked[i].number);
            if (asked[i].number != QMTD_OK) {
                EXPECT(all(answer, sizeof answer, 0xEE));
                continue;
            }
            EXPECT(qmtd_number(answer) == asked[i].ground && qmtd_number(answer + 4) == (asked[i].leads ? h : 0));
            EXPECT(qmtd_number(answer + 8) == asked[i].m0 && qmtd_number(answer + 12) == asked[i].m1);
            EXPECT(answer[16] == asked[i].bits && all(answer + 17, 7, 0));
        }
        EXPECT(result[0] == (passed ? 0 : h) && all(result + 1, K - 1, 0) && syndrome[0] == (passed ? 0 : h));
        EXPECT(difference[0] == (passed ? on->most_q - h : 0) && all(difference + 1, K - 1, 0));
        asked = passed_asked;
        count = sizeof passed_asked / sizeof passed_asked[0];
        EXPECT(on->pass(on->most_q, K, 1, table_a, sizeof table_a, 2, result, K, syndrome, K, difference, K,
                        changes, sizeof changes) == QMTD_OK);
    }

    /* Other lengths of the answer: 6, before 7, 9 and 11. */
    memset(answer, 0xEE, sizeof answer);
    syndrome[K - 1] = 5;
    for (uint64_t len = 0; len < sizeof answer; len++)
        EXPECT(on->explain(on->q, K, 1, table_a, sizeof table_a, 33, K, result, K, syndrome, K, difference, K,
                           answer, len) == QMTD_BAD_LENGTH);
    EXPECT(all(answer, sizeof answer, 0xEE));
    EXPECT(QMTD_BAD_SYMBOL_NUMBER == 11 && QMTD_ANSWER_LEN == 24 && sizeof answer == QMTD_ANSWER_LEN);
    EXPECT(QMTD_GROUND_NO_LEAD == 1 && QMTD_GROUND_ZERO == 2 && QMTD_GROUND_CHANGE == 3);
}

/* A small generator of our own, so that a failure can be had again. */
static uint32_t below(uint32_t n)
{
    static uint64_t state = 1;
    state = state * 6364136223846793005u + 1442695040888963407u;
    return (uint32_t)(state >> 33) % n;
}

/* A check of a data symbol: that of position `a` of its branch's run. */
static uint32_t check_of(uint32_t k, const uint8_t *table, uint32_t j, uint32_t symbol, uint32_t a)
{
    const uint8_t *run = table + 2 * j * (symbol / k);
    return (symbol + (run[2 * a] | (uint32_t)run[2 * a + 1] << 8)) % k;
}

/* How often each value is among the estimates of a data symbol. */
static void count_votes(uint32_t k, const uint8_t *table, uint32_t j, const uint8_t *s, const uint8_t *d,
                        uint32_t symbol, int32_t votes[256])
{
    memset(votes, 0, 256 * sizeof votes[0]);
    votes[d[symbol]]++;
    for (uint32_t a = 0; a < j; a++)
        votes[s[check_of(k, table, j, symbol, a)]]++;
}

/* The margin of a data symbol by its definition. */
static int32_t margin_of(uint32_t k, const uint8_t *table, uint32_t j, const uint8_t *s, const uint8_t *d,
                         uint32_t symbol)
{
    int32_t votes[256], most = 0;
    count_votes(k, table, j, s, d, symbol, votes);
    for (size_t value = 1; value < 256; value++)
        most = votes[value] > most ? votes[value] : most;
    return votes[0] - most;
}

/* What passes work on: result, difference and syndrome, one after the other; and what they held before a call. */
static uint8_t opened[2 * QMTD_MAX_DATA + QMTD_MAX_K], before[sizeof opened];

static uint32_t nonzero(const uint8_t *symbols, uint32_t len)
{
    uint32_t count = 0;
    for (uint32_t i = 0; i < len; i++)
        count += symbols[i] != 0;
    return count;
}

/* Explains a symbol of what was held before a call, holds the answer against its definition, and returns the ground. */
static uint32_t ground_of(uint32_t q, uint32_t k, uint32_t b, const uint8_t *table, uint32_t table_len,
                          uint32_t threshold, uint32_t symbol)
{
    const uint32_t n = QMTD_DATA_LEN(k, b), j = table_len / (2 * b);
    const uint8_t *run = table + 2 * j * (symbol / k), *s = before + 2 * n, *d = before + n;
    uint32_t votes[256] = {0}, m1 = 0;
    uint8_t bytes[QMTD_ANSWER_LEN];
    EXPECT(on->explain(q, k, b, table, table_len, threshold, symbol, before, n, s, k, d, n, bytes, sizeof bytes) ==
           QMTD_OK);
    const uint32_t h0 = qmtd_number(bytes + 4), m0 = qmtd_number(bytes + 8);
    for (uint32_t i = 0; i < 64; i++) {
        uint32_t set = bytes[16 + i / 8] >> i % 8 & 1, estimate = d[symbol];
        if (i > j) {
            EXPECT(set == 0);
            continue;
        }
        if (i > 0)
            estimate = s[(symbol + (run[2 * i - 2] | (uint32_t)run[2 * i - 1] << 8)) % k];
        votes[estimate]++;
        EXPECT(set == (estimate == h0));
    }
    for (uint32_t value = 0; value < 256; value++) {
        EXPECT(value < h0 ? votes[value] < m0 : votes[value] <= m0);
        m1 = value != h0 && votes[value] > m1 ? votes[value] : m1;
    }
    EXPECT(h0 < q && votes[h0] == m0 && qmtd_number(bytes + 12) == m1);
    EXPECT(qmtd_number(bytes) == (m0 - m1 <= threshold ? QMTD_GROUND_NO_LEAD
                                : h0 == 0            ? QMTD_GROUND_ZERO
                                                     : QMTD_GROUND_CHANGE));
    return qmtd_number(bytes);
}

/* Makes a pass and returns its changes. Each lowers the nonzero symbols of syndrome and difference by more than the
 * threshold, and result minus difference stays. The first symbol that is changed was to be changed, and none before it:
 * the visits to these found the buffers as they were before the pass. */
static uint32_t pass(uint32_t q, uint32_t k, uint32_t b, const uint8_t *table, uint32_t table_len, uint32_t threshold)
{
    const uint32_t n = QMTD_DATA_LEN(k, b);
    uint8_t bytes[QMTD_CHANGES_LEN];
    memcpy(before, opened, 2 * n + k);
    EXPECT(on->pass(q, k, b, table, table_len, threshold, opened, n, opened + 2 * n, k, opened + n, n,
                    bytes, sizeof bytes) == QMTD_OK);
    uint32_t made = qmtd_number(bytes);
    EXPECT(nonzero(opened + n, n + k) + made * (threshold + 1) <= nonzero(before + n, n + k));
    for (uint32_t i = 0; i < n; i++)
        EXPECT((opened[i] + before[n + i]) % q == (before[i] + opened[n + i]) % q);
    EXPECT((made == 0) == (memcmp(opened, before, 2 * n + k) == 0));
    uint32_t first = 0;
    while (first < n && opened[first] == before[first])
        first++;
    if (first < n)
        EXPECT(ground_of(q, k, b, table, table_len, threshold, first) == QMTD_GROUND_CHANGE);
    if (first > 0)
        EXPECT(ground_of(q, k, b, table, table_len, threshold, below(first)) != QMTD_GROUND_CHANGE);
    return made;
}

/* A pass that is refused, in one of eight ways, leaves every byte. */
static void refused_pass(uint32_t q, uint32_t k, uint32_t b, const uint8_t *table, uint32_t table_len)
{
    const uint32_t n = QMTD_DATA_LEN(k, b), way = below(8);
    const uint32_t threshold = way == 0 ? QMTD_MAX_THRESHOLD + 1 : way == 1 ? 0xFFFFFFFF - below(100) : 0;
    const uint32_t changes_len = way == 5 ? 0 : way == 6 ? 3 : way == 7 ? 5 : QMTD_CHANGES_LEN;
    uint8_t bytes[5];
    memset(bytes, 0xEE, sizeof bytes);
    memcpy(before, opened, 2 * n + k);
    EXPECT(on->pass(q, k, b, table, table_len, threshold, opened, n - (way == 2), opened + 2 * n, k - (way == 3),
                    opened + n, n - (way == 4), bytes, changes_len) ==
           (way < 2 ? QMTD_BAD_THRESHOLD : QMTD_BAD_LENGTH));
    EXPECT(all(bytes, sizeof bytes, 0xEE) && memcmp(opened, before, 2 * n + k) == 0);
}

/* What a decode handed back. */
struct decoded {
    const uint8_t *result, *syndrome, *difference, *margins, *counts;
};

/* The page decoded with counters: all is as it is without them. Refused by one counter that is not 0, it leaves every
 * byte. */
static void counted_as(uint32_t q, uint32_t k, uint32_t b, const uint8_t *table, uint32_t table_len,
                       const uint8_t *received, const uint8_t *list, uint32_t list_len, struct decoded decoded)
{
    static uint8_t back[QMTD_MAX_DATA], s[QMTD_MAX_K], d[QMTD_MAX_DATA], m[QMTD_MARGINS_LEN(QMTD_MAX_DATA, 1)];
    const uint32_t n = QMTD_DATA_LEN(k, b), margins_len = QMTD_MARGINS_LEN(k, b), place = below(QMTD_COUNTERS_LEN);
    uint8_t c[QMTD_COUNTS_LEN];
    for (int amiss = 1; amiss >= 0; amiss--) {
        memset(back, 0xEE, n);
        memset(s, 0xEE, k);
        memset(d, 0xEE, n);
        memset(m, 0xEE, margins_len);
        memset(c, 0xEE, sizeof c);
        counters[place] = (uint8_t)(amiss ? 1 + below(255) : 0);
        uint8_t held = counters[place];
        uint32_t number = qmtd_decode_counters(q, k, b, table, table_len, received, QMTD_PAGE_LEN(k, b), list, list_len,
                                               back, n, s, k, d, n, m, margins_len, counters, QMTD_COUNTERS_LEN,
                                               c, sizeof c);
        EXPECT(number == (amiss ? QMTD_BAD_LENGTH : QMTD_OK) && counters[place] == held);
        if (amiss)
            EXPECT(all(back, n, 0xEE) && all(s, k, 0xEE) && all(d, n, 0xEE) && all(m, margins_len, 0xEE) &&
                   all(c, sizeof c, 0xEE));
    }
    EXPECT(counters_zero());
    EXPECT(memcmp(back, decoded.result, n) == 0 && memcmp(s, decoded.syndrome, k) == 0 &&
           memcmp(d, decoded.difference, n) == 0 && memcmp(m, decoded.margins, margins_len) == 0 &&
           memcmp(c, decoded.counts, sizeof c) == 0);
}

/* A block length for n data symbols. */
static uint32_t some_block(uint32_t n)
{
    uint32_t block;
    do
        block = QMTD_MIN_BLOCK + below(n - 1);
    while (n % block != 0);
    return block;
}

/* The outer step of the block that starts at `first`, by its definition. Returns 1 where there is one and adds its
 * reliability to the distance. */
static uint32_t outer_step(uint32_t q, uint32_t k, const uint8_t *table, uint32_t j, uint32_t first, uint32_t block,
                           uint8_t *back, uint8_t *s, uint8_t *d, uint32_t *distance)
{
    int32_t votes[256], least = 0, reliability = 0;
    uint32_t e = 0, weakest = 0;
    for (uint32_t i = first; i < first + block; i++)
        e = (e + back[i]) % q;
    if (e == 0)
        return 0;
    for (uint32_t i = first; i < first + block; i++) {
        count_votes(k, table, j, s, d, i, votes);
        reliability = votes[0] - votes[e];
        if (i == first || (i < first + block - 1 && reliability < least)) {
            least = reliability;
            weakest = i;
        }
    }
    if (least >= reliability)
        return 0;
    back[weakest] = (uint8_t)((back[weakest] + q - e) % q);
    d[weakest] = (uint8_t)((d[weakest] + q - e) % q);
    for (uint32_t a = 0; a < j; a++) {
        uint8_t *at = &s[check_of(k, table, j, weakest, a)];
        *at = (uint8_t)((*at + q - e) % q);
    }
    *distance = (uint32_t)((int32_t)*distance + least);
    return 1;
}

/* The page decoded with an outer check in blocks of some length: what decode gives, and after it the outer steps, by
 * their definition. Refused for its block length, it leaves every byte. Returns the steps. */
static uint32_t outer_as(uint32_t q, uint32_t k, uint32_t b, const uint8_t *table, uint32_t table_len, uint32_t block,
                         const uint8_t *received, const uint8_t *list, uint32_t list_len, struct decoded decoded)
{
    static uint8_t back[QMTD_MAX_DATA], s[QMTD_MAX_K], d[QMTD_MAX_DATA], m[QMTD_MARGINS_LEN(QMTD_MAX_DATA, 1)];
    static uint8_t due[QMTD_MAX_DATA], due_s[QMTD_MAX_K], due_d[QMTD_MAX_DATA];
    const uint32_t n = QMTD_DATA_LEN(k, b), j = table_len / (2 * b), margins_len = QMTD_MARGINS_LEN(k, b);
    const uint32_t refused[] = {0, 1, n + 1, 0xFFFFFFFF - below(100)};
    uint32_t steps = 0, distance = qmtd_number(decoded.counts + 12);
    uint8_t c[QMTD_COUNTS_LEN];

    memset(back, 0xEE, n);
    memset(s, 0xEE, k);
    memset(d, 0xEE, n);
    memset(m, 0xEE, margins_len);
    memset(c, 0xEE, sizeof c);
    EXPECT(qmtd_decode_outer(q, k, b, table, table_len, refused[below(4)], received, QMTD_PAGE_LEN(k, b), list,
                             list_len, back, n, s, k, d, n, m, margins_len, c, sizeof c) == QMTD_BAD_BLOCK);
    EXPECT(all(back, n, 0xEE) && all(s, k, 0xEE) && all(d, n, 0xEE) && all(m, margins_len, 0xEE) &&
           all(c, sizeof c, 0xEE));
    EXPECT(qmtd_decode_outer(q, k, b, table, table_len, block, received, QMTD_PAGE_LEN(k, b), list, list_len, back, n,
                             s, k, d, n, m, margins_len, c, sizeof c) == QMTD_OK);

    memcpy(due, decoded.result, n);
    memcpy(due_s, decoded.syndrome, k);
    memcpy(due_d, decoded.difference, n);
    for (uint32_t first = 0; first < n; first += block)
        steps += outer_step(q, k, table, j, first, block, due, due_s, due_d, &distance);
    EXPECT(memcmp(back, due, n) == 0 && memcmp(s, due_s, k) == 0 && memcmp(d, due_d, n) == 0);
    for (uint32_t i = 0; i < n; i++)
        EXPECT(qmtd_margin(m, i) == margin_of(k, table, j, due_s, due_d, i));
    EXPECT(qmtd_number(c) == qmtd_number(decoded.counts));
    EXPECT(qmtd_number(c + 4) == qmtd_number(decoded.counts + 4) + steps);
    EXPECT(qmtd_number(c + 8) == qmtd_number(decoded.counts + 8));
    EXPECT(qmtd_number(c + 12) == distance && distance == nonzero(due_s, k) + nonzero(due_d, n));
    return steps;
}

/* The page opened, and the passes that decode runs with this list made one by one, refused ones between them: they
 * leave decode's result, syndrome and difference, and are as many with as many changes. */
static void passes_of(uint32_t q, uint32_t k, uint32_t b, const uint8_t *table, uint32_t table_len,
                      const uint8_t *received, const uint8_t *list, uint32_t list_len, struct decoded decoded)
{
    const uint32_t n = QMTD_DATA_LEN(k, b);
    uint32_t passes = 0, sum = 0;
    EXPECT(on->open(q, k, b, table, table_len, received, QMTD_PAGE_LEN(k, b), opened, n, opened + 2 * n, k,
                    opened + n, n) == QMTD_OK);
    EXPECT(memcmp(opened, received, n) == 0 && all(opened + n, n, 0));
    for (uint32_t at = 0; at < list_len;) {
        uint32_t threshold = list[at++];
        refused_pass(q, k, b, table, table_len);
        uint32_t made = pass(q, k, b, table, table_len, threshold);
        passes++;
        sum += made;
        while (made == 0 && at < list_len && list[at] >= threshold)
            at++;
    }
    refused_pass(q, k, b, table, table_len);
    EXPECT(passes == qmtd_number(decoded.counts) && sum == qmtd_number(decoded.counts + 4));
    EXPECT(memcmp(opened, decoded.result, n) == 0 && memcmp(opened + n, decoded.difference, n) == 0 &&
           memcmp(opened + 2 * n, decoded.syndrome, k) == 0);
}

/* Passes on buffers that no page was opened into: any result, and few values in the others, so that many agree. */
static void passes_on_any(uint32_t q, uint32_t k, uint32_t b, const uint8_t *table, uint32_t j)
{
    const uint32_t n = QMTD_DATA_LEN(k, b);
    for (uint32_t i = 0; i < 2 * n + k; i++)
        opened[i] = (uint8_t)below(i < n || q < 3 ? q : 3);
    for (uint32_t threshold = j + 2; threshold-- > 0;) {
        refused_pass(q, k, b, table, QMTD_TABLE_LEN(b, j));
        pass(q, k, b, table, QMTD_TABLE_LEN(b, j), threshold);
    }
}

/* Replaces so many of a page's symbols at most. */
static void replace(uint32_t q, uint8_t *received, uint32_t page_len, uint32_t most)
{
    for (; most > 0; most--)
        received[below(page_len)] = (uint8_t)below(q);
}

/* Data encoded with an outer check. The page is that of qmtd_encode for the data with the last place of each block
 * replaced so that the block sums to 0, whatever is lent there. With at most t symbols replaced decode gives the data
 * back and makes no outer step; with many replaced the outer steps are those of their definition. Returns these. */
static uint32_t outer_of(uint32_t q, uint32_t k, uint32_t b, const uint8_t *table, uint32_t table_len,
                         const uint8_t *data_lent, uint32_t t, const uint8_t *list, uint32_t list_len)
{
    static uint8_t sent[QMTD_MAX_DATA], back[QMTD_MAX_DATA], s[QMTD_MAX_K], d[QMTD_MAX_DATA];
    static uint8_t encoded[QMTD_MAX_PAGE_LEN], received[QMTD_MAX_PAGE_LEN], m[QMTD_MARGINS_LEN(QMTD_MAX_DATA, 1)];
    const uint32_t n = QMTD_DATA_LEN(k, b), page_len = QMTD_PAGE_LEN(k, b), block = some_block(n);
    uint8_t c[QMTD_COUNTS_LEN];
    const struct decoded decoded = {back, s, d, m, c};
    uint32_t steps = 0;
    memcpy(sent, data_lent, n);
    for (uint32_t first = 0; first < n; first += block) {
        uint32_t sum = 0;
        for (uint32_t i = first; i < first + block - 1; i++)
            sum += sent[i];
        sent[first + block - 1] = (uint8_t)((q - sum % q) % q);
    }
    EXPECT(qmtd_encode(q, k, b, table, table_len, sent, n, encoded, page_len) == QMTD_OK);
    memset(received, 0xEE, page_len);
    EXPECT(qmtd_encode_outer(q, k, b, table, table_len, 1, data_lent, n, received, page_len) == QMTD_BAD_BLOCK);
    EXPECT(all(received, page_len, 0xEE));
    EXPECT(qmtd_encode_outer(q, k, b, table, table_len, block, data_lent, n, received, page_len) == QMTD_OK);
    EXPECT(memcmp(received, encoded, page_len) == 0);

    for (int many = 0; many < 2; many++) {
        memcpy(received, encoded, page_len);
        replace(q, received, page_len, many ? page_len / 8 + 1 : t);
        EXPECT(qmtd_decode(q, k, b, table, table_len, received, page_len, list, list_len, back, n, s, k, d, n,
                           m, QMTD_MARGINS_LEN(k, b), c, sizeof c) == QMTD_OK);
        steps = outer_as(q, k, b, table, table_len, block, received, list, list_len, decoded);
        if (!many)
            EXPECT(steps == 0 && memcmp(back, sent, n) == 0);
    }
    return steps;
}

/* At most t of a page's symbols replaced, 2 * t + (smallest threshold) <= J: decode gives the data back, wherever the
 * smallest stands in the list and whatever the others are, and so do its passes made one by one; on pages of bytes also
 * decode with counters, and decode with an outer check where the data kept the outer rule. The distance at the end is
 * that of the page encoded from the result, and the margins are those of the syndrome and the difference handed back.
 * Returns the outer steps made. */
static uint32_t recovery_of(uint32_t q, uint32_t k, uint32_t b, const uint8_t *table, uint32_t j, int rounds)
{
    static uint8_t sent[QMTD_MAX_DATA], back[QMTD_MAX_DATA], s[QMTD_MAX_K], d[QMTD_MAX_DATA];
    static uint8_t encoded[QMTD_MAX_PAGE_LEN], received[QMTD_MAX_PAGE_LEN], again[QMTD_MAX_PAGE_LEN];
    static uint8_t m[QMTD_MARGINS_LEN(QMTD_MAX_DATA, 1)];
    const uint32_t table_len = QMTD_TABLE_LEN(b, j), n = QMTD_DATA_LEN(k, b), page_len = QMTD_PAGE_LEN(k, b);
    uint32_t steps = 0;
    while (rounds-- > 0) {
        for (uint32_t i = 0; i < n; i++)
            sent[i] = (uint8_t)below(q);
        EXPECT(on->encode(q, k, b, table, table_len, sent, n, encoded, page_len) == QMTD_OK);

        uint8_t list[QMTD_MAX_THRESHOLDS];
        uint32_t list_len = 1 + below(below(4) == 0 ? QMTD_MAX_THRESHOLDS : 4), smallest = below(j + 1);
        for (uint32_t i = 0; i < list_len; i++)
            list[i] = (uint8_t)(smallest + below(QMTD_MAX_THRESHOLD + 1 - smallest));
        list[below(list_len)] = (uint8_t)smallest;
        uint32_t replaced = 0;
        memcpy(received, encoded, page_len);
        replace(q, received, page_len, (j - smallest) / 2);
        for (uint32_t i = 0; i < page_len; i++)
            replaced += received[i] != encoded[i];

        uint8_t c[QMTD_COUNTS_LEN];
        EXPECT(on->decode(q, k, b, table, table_len, received, page_len, list, list_len, back, n, s, k, d, n,
                          m, QMTD_MARGINS_LEN(k, b), c, sizeof c) == QMTD_OK);
        EXPECT(memcmp(back, sent, n) == 0);
        EXPECT(qmtd_number(c + 12) == replaced);

        EXPECT(on->encode(q, k, b, table, table_len, back, n, again, page_len) == QMTD_OK);
        for (uint32_t i = 0; i < k; i++)
            EXPECT((received[n + i] + s[i]) % q == again[n + i]);
        for (uint32_t i = 0; i < n; i++) {
            EXPECT((received[i] + d[i]) % q == back[i]);
            EXPECT(qmtd_margin(m, i) == margin_of(k, table, j, s, d, i));
        }
        EXPECT(nonzero(s, k) + nonzero(d, n) == replaced);
        const struct decoded decoded = {back, s, d, m, c};
        passes_of(q, k, b, table, table_len, received, list, list_len, decoded);
        if (on == &bit_pages)
            continue;
        counted_as(q, k, b, table, table_len, received, list, list_len, decoded);
        steps += outer_as(q, k, b, table, table_len, some_block(n), received, list, list_len, decoded);
        steps += outer_of(q, k, b, table, table_len, sent, (j - smallest) / 2, list, list_len);
    }
    passes_on_any(q, k, b, table, j);
    return steps;
}

static void recovery(void)
{
    static const uint8_t k_7[] = {0, 0, 1, 0, 3, 0};
    static const uint8_t k_57[] = {0, 0, 1, 0, 3, 0, 13, 0, 32, 0, 36, 0, 43, 0, 52, 0};
    static const uint8_t k_4096[] = {0, 0, 1, 0, 6, 0, 10, 0, 23, 0, 26, 0, 34, 0, 41, 0, 53, 0, 55, 0};
    static const uint8_t pairs[] = {0, 0, 1, 0, 0, 0, 2, 0, 0, 0, 3, 0, 0, 0, 4, 0,
                                    0, 0, 5, 0, 0, 0, 6, 0, 0, 0, 7, 0, 0, 0, 8, 0};
    uint32_t steps = 0;
    steps += recovery_of(3, 7, 1, k_7, 3, 50);
    steps += recovery_of(256, 7, 1, k_7, 3, 50);
    steps += recovery_of(3, K, 1, table_a, J, 100);
    steps += recovery_of(10, K, 1, table_a, J, 100);
    steps += recovery_of(256, K, 1, table_a, J, 100);
    steps += recovery_of(5, 57, 1, k_57, 8, 100);
    steps += recovery_of(251, 57, 1, k_57, 8, 100);
    steps += recovery_of(129, 4096, 1, k_4096, 10, 3);
    steps += recovery_of(256, 4096, 1, k_4096, 10, 3);

    steps += recovery_of(3, K, 2, table_2, 3, 100);
    steps += recovery_of(256, K, 2, table_2, 3, 100);
    steps += recovery_of(5, 40, 3, table_3, 4, 100);
    steps += recovery_of(251, 40, 3, table_3, 4, 100);
    for (uint32_t b = QMTD_MIN_B; b <= QMTD_MAX_B; b++) {
        steps += recovery_of(10, 17, b, pairs, 2, 20);
        steps += recovery_of(256, QMTD_MAX_DATA / b, b, pairs, 2, 2);
    }
    EXPECT(steps > 1000);

    on = &bit_pages;
    recovery_of(2, 7, 1, k_7, 3, 100);
    recovery_of(2, K, 1, table_a, J, 200);
    recovery_of(2, 57, 1, k_57, 8, 200);
    recovery_of(2, 57, 1, k_57, 7, 200);
    recovery_of(2, 4096, 1, k_4096, 10, 3);
    recovery_of(2, K, 2, table_2, 3, 100);
    recovery_of(2, 40, 3, table_3, 4, 100);
    for (uint32_t b = QMTD_MIN_B; b <= QMTD_MAX_B; b++) {
        recovery_of(2, 17, b, pairs, 2, 20);
        recovery_of(2, QMTD_MAX_DATA / b, b, pairs, 2, 2);
    }
    on = &byte_pages;
}

/* On bit pages 1 unless q is 2, in every call and before all else. */
static void q_of_bits(void)
{
    static const uint32_t large[] = {65534, 65538, 0x7FFFFFFF, 0x80000000, 0x80000002, 0xFFFFFFFE, 0xFFFFFFFF};
    const uint8_t *t = table_a;
    const size_t n = sizeof table_a, few = 600, count = few + sizeof large / sizeof large[0];
    prepare();
    for (size_t i = 0; i < count; i++) {
        const uint32_t q = i < few ? (uint32_t)i : large[i - few];
        if (q == 2)
            continue;
        EXPECT(qmtd_bits_check_table(q, K, 1, t, n) == QMTD_BAD_Q);
        EXPECT(qmtd_bits_check_table(q, 0, 9, NULL, 0) == QMTD_BAD_Q);
        EXPECT(qmtd_bits_encode(q, K, 1, t, n, data, K, page, sizeof page) == QMTD_BAD_Q);
        EXPECT(qmtd_bits_syndrome(q, K, 1, t, n, page, sizeof page, syndrome, K) == QMTD_BAD_Q);
        EXPECT(qmtd_bits_decode(q, K, 1, t, n, page, sizeof page, thresholds, 2, result, K, syndrome, K, difference, K,
                                margins, sizeof margins, counts, sizeof counts) == QMTD_BAD_Q);
        EXPECT(qmtd_bits_open(q, K, 1, t, n, page, sizeof page, result, K, syndrome, K, difference, K) == QMTD_BAD_Q);
        EXPECT(qmtd_bits_pass(q, K, 1, t, n, 0, result, K, syndrome, K, difference, K, changes, 4) == QMTD_BAD_Q);
        EXPECT(qmtd_bits_explain(q, K, 1, t, n, 0, 0, result, K, syndrome, K, difference, K, answer, 24) == QMTD_BAD_Q);
    }
    EXPECT(answers_untouched() && all(page, sizeof page, 0));
    EXPECT(qmtd_bits_check_table(2, K, 1, t, n) == QMTD_OK && qmtd_check_table(2, K, 1, t, n) == QMTD_BAD_Q);
    EXPECT(QMTD_BITS_Q == 2);
}

/* On bit pages 7 for every byte of 2 and more at every place: of data, of a page, and of the three buffers of a pass or
 * an explanation. */
static void bytes_on_bits(void)
{
    const uint8_t *t = table_a;
    const size_t n = sizeof table_a;
    prepare();
    for (size_t value = 2; value < 256; value++)
        for (size_t place = 0; place < 2 * K; place++) {
            page[place] = (uint8_t)value;
            EXPECT(qmtd_bits_syndrome(2, K, 1, t, n, page, sizeof page, syndrome, K) == QMTD_BAD_SYMBOL);
            EXPECT(qmtd_bits_decode(2, K, 1, t, n, page, sizeof page, thresholds, 2, result, K, syndrome, K,
                                    difference, K, margins, sizeof margins, counts, sizeof counts) == QMTD_BAD_SYMBOL);
            EXPECT(qmtd_bits_open(2, K, 1, t, n, page, sizeof page, result, K, syndrome, K, difference, K) ==
                   QMTD_BAD_SYMBOL);
            page[place] = 0;
            if (place >= K)
                continue;
            data[place] = (uint8_t)value;
            EXPECT(qmtd_bits_encode(2, K, 1, t, n, data, K, page, sizeof page) == QMTD_BAD_SYMBOL);
            data[place] = 0;
        }
    EXPECT(answers_untouched() && all(page, sizeof page, 0));

    memset(result, 0, K);
    memset(syndrome, 0, K);
    memset(difference, 0, K);
    uint8_t *const buffers[] = {result, syndrome, difference};
    for (size_t value = 2; value < 256; value++)
        for (size_t place = 0; place < 3 * K; place++) {
            uint8_t *at = &buffers[place / K][place % K];
            *at = (uint8_t)value;
            EXPECT(qmtd_bits_pass(2, K, 1, t, n, 0, result, K, syndrome, K, difference, K, changes, 4) ==
                   QMTD_BAD_SYMBOL);
            EXPECT(qmtd_bits_explain(2, K, 1, t, n, 0, 5, result, K, syndrome, K, difference, K, answer, 24) ==
                   QMTD_BAD_SYMBOL);
            EXPECT(*at == value);
            *at = 0;
        }
    EXPECT(all(changes, sizeof changes, 0xEE) && all(answer, sizeof answer, 0xEE));
    EXPECT(all(result, K, 0) && all(syndrome, K, 0) && all(difference, K, 0));
}

/* Bits 0 and 1 of a page received as 1, encoded, decoded, opened, explained and by one pass, with every piece at every
 * distance from an aligned address. */
static void unaligned_bits(void)
{
    static const uint8_t due_counts[QMTD_COUNTS_LEN] = {[0] = 2, [4] = 2, [8] = 6, [12] = 2};
    static const uint8_t due_answer[QMTD_ANSWER_LEN] = {[0] = 3, [4] = 1, [8] = 3, [12] = 2, [16] = 26};
    enum { ROOM = 80 };
    static union {
        uint64_t alignment;
        uint8_t bytes[8][ROOM];
    } memory;
    for (size_t shift = 0; shift < 16; shift++) {
        uint8_t *at[8];
        memset(memory.bytes, 0, sizeof memory.bytes);
        for (size_t i = 0; i < 8; i++)
            at[i] = memory.bytes[i] + (shift + i) % 16;
        memcpy(at[0], table_a, sizeof table_a);
        at[1][0] = at[1][1] = 1;
        EXPECT(qmtd_bits_check_table(2, K, 1, at[0], sizeof table_a) == QMTD_OK);
        EXPECT(qmtd_bits_decode(2, K, 1, at[0], sizeof table_a, at[1], 2 * K, at[2], 2, at[3], K, at[4], K, at[5], K,
                                at[6], QMTD_MARGINS_LEN(K, 1), at[7], QMTD_COUNTS_LEN) == QMTD_OK);
        EXPECT(all(at[3], K, 0) && all(at[4], K, 0) && all(at[5], 2, 1) && all(at[5] + 2, K - 2, 0));
        for (size_t j = 0; j < K; j++)
            EXPECT(qmtd_margin(at[6], j) == (j < 2 ? J - 1 : J + 1));
        EXPECT(memcmp(at[7], due_counts, sizeof due_counts) == 0);

        EXPECT(qmtd_bits_open(2, K, 1, at[0], sizeof table_a, at[1], 2 * K, at[3], K, at[4], K, at[5], K) == QMTD_OK);
        EXPECT(memcmp(at[3], at[1], K) == 0 && all(at[5], K, 0));
        /* The estimates of symbol 0 are 0, 1, 0, 1, 1. */
        EXPECT(qmtd_bits_explain(2, K, 1, at[0], sizeof table_a, 0, 0, at[3], K, at[4], K, at[5], K, at[7],
                                 QMTD_ANSWER_LEN) == QMTD_OK);
        EXPECT(memcmp(at[7], due_answer, sizeof due_answer) == 0);
        EXPECT(qmtd_bits_pass(2, K, 1, at[0], sizeof table_a, 0, at[3], K, at[4], K, at[5], K, at[6],
                              QMTD_CHANGES_LEN) == QMTD_OK);
        EXPECT(all(at[3], K, 0) && all(at[4], K, 0) && all(at[5], 2, 1) && all(at[5] + 2, K - 2, 0));
        EXPECT(qmtd_number(at[6]) == 2);

        EXPECT(qmtd_bits_syndrome(2, K, 1, at[0], sizeof table_a, at[1], 2 * K, at[4], K) == QMTD_OK);
        EXPECT(at[4][0] == 1 && at[4][1] == 0 && at[4][2] == 1 && at[4][5] == 1);
        at[3][0] = at[3][1] = 1;
        EXPECT(qmtd_bits_encode(2, K, 1, at[0], sizeof table_a, at[3], K, at[1], 2 * K) == QMTD_OK);
        EXPECT(memcmp(at[1], at[3], K) == 0 && memcmp(at[1] + K, at[4], K) == 0);
    }
}

/* b outside its limits: 10, after 1 and 2 and before all else; nothing is divided by it and no product with k wraps. */
static void branches(void)
{
    static const uint32_t others[] = {0, 9, 10, 255, 256, 257, 65535, 65536, 65537, 0x7FFFFFFF, 0x80000000, 0x80000001,
                                      0x10000001, 0x00100000, 0x00100001, 0xFFFFFFF8, 0xFFFFFFFE, 0xFFFFFFFF};
    static const uint8_t zeros[QMTD_MAX_TABLE_LEN + 2] = {0};
    const size_t n = sizeof table_a;
    prepare();

    for (size_t i = 0; i < sizeof others / sizeof others[0]; i++) {
        uint32_t b = others[i];
        EXPECT(on->check_table(on->q, K, b, table_a, n) == QMTD_BAD_BRANCHES);
        EXPECT(on->check_table(on->q, 16, b, table_a, n) == QMTD_BAD_BRANCHES);
        EXPECT(on->check_table(on->q, QMTD_MAX_K, b, table_a, n) == QMTD_BAD_BRANCHES);
        EXPECT(on->check_table(on->q, QMTD_MAX_K + 1, b, table_a, n) == QMTD_BAD_K);
        EXPECT(on->check_table(on->other_q, QMTD_MAX_K + 1, b, table_a, n) == QMTD_BAD_Q);
        EXPECT(on->check_table(on->q, K, b, NULL, 0) == QMTD_BAD_BRANCHES);
        EXPECT(on->check_table(on->q, K, b, table_a, 7) == QMTD_BAD_BRANCHES);
        EXPECT(on->encode(on->q, K, b, table_a, n, data, K, page, sizeof page) == QMTD_BAD_BRANCHES);
        EXPECT(on->encode(on->q, K, b, NULL, 0, NULL, 0, NULL, 0) == QMTD_BAD_BRANCHES);
        EXPECT(on->syndrome(on->q, K, b, table_a, n, page, sizeof page, syndrome, K) == QMTD_BAD_BRANCHES);
        EXPECT(on->syndrome(on->q, K, b, NULL, 0, NULL, 0, NULL, 0) == QMTD_BAD_BRANCHES);
        EXPECT(on->decode(on->q, K, b, table_a, n, page, sizeof page, thresholds, 2, result, K, syndrome, K,
                          difference, K, margins, sizeof margins, counts, sizeof counts) == QMTD_BAD_BRANCHES);
        EXPECT(on->decode(on->q, K, b, NULL, 0, NULL, 0, NULL, 0, NULL, 0, NULL, 0, NULL, 0, NULL, 0, NULL, 0) ==
               QMTD_BAD_BRANCHES);
        EXPECT(qmtd_decode_counters(5, K, b, table_a, n, page, sizeof page, thresholds, 2, result, K, syndrome, K,
                                    difference, K, margins, sizeof margins, counters, 255, counts, sizeof counts) ==
               QMTD_BAD_BRANCHES);
        EXPECT(qmtd_decode_counters(5, K, b, NULL, 0, NULL, 0, NULL, 0, NULL, 0, NULL, 0, NULL, 0, NULL, 0, NULL, 0,
                                    NULL, 0) == QMTD_BAD_BRANCHES);
        EXPECT(qmtd_encode_outer(5, K, b, table_a, n, K, data, K, page, sizeof page) == QMTD_BAD_BRANCHES);
        EXPECT(qmtd_encode_outer(5, K, b, NULL, 0, 0, NULL, 0, NULL, 0) == QMTD_BAD_BRANCHES);
        EXPECT(qmtd_decode_outer(5, K, b, table_a, n, K, page, sizeof page, thresholds, 2, result, K, syndrome, K,
                                 difference, K, margins, sizeof margins, counts, sizeof counts) == QMTD_BAD_BRANCHES);
        EXPECT(qmtd_decode_outer(5, K, b, NULL, 0, 0, NULL, 0, NULL, 0, NULL, 0, NULL, 0, NULL, 0, NULL, 0, NULL, 0) ==
               QMTD_BAD_BRANCHES);
        EXPECT(on->open(on->q, K, b, table_a, n, page, sizeof page, result, K, syndrome, K, difference, K) ==
               QMTD_BAD_BRANCHES);
        EXPECT(on->open(on->q, K, b, NULL, 0, NULL, 0, NULL, 0, NULL, 0, NULL, 0) == QMTD_BAD_BRANCHES);
        EXPECT(on->pass(on->q, K, b, table_a, n, 33, result, K, syndrome, K, difference, K, changes, 4) ==
               QMTD_BAD_BRANCHES);
        EXPECT(on->pass(on->q, K, b, NULL, 0, 33, NULL, 0, NULL, 0, NULL, 0, NULL, 0) == QMTD_BAD_BRANCHES);
        EXPECT(on->explain(on->q, K, b, table_a, n, 33, K, result, K, syndrome, K, difference, K, answer, 24) ==
               QMTD_BAD_BRANCHES);
        EXPECT(on->explain(on->q, K, b, NULL, 0, 33, K, NULL, 0, NULL, 0, NULL, 0, NULL, 0) == QMTD_BAD_BRANCHES);
    }
    EXPECT(answers_untouched() && counters_zero() && all(page, sizeof page, 0));

    /* b * k at its limit, and above; one position in each run. */
    for (uint32_t b = QMTD_MIN_B; b <= QMTD_MAX_B; b++) {
        uint32_t most = QMTD_MAX_DATA / b, due = b == 1 ? QMTD_BAD_K : QMTD_BAD_BRANCHES;
        EXPECT(on->check_table(on->q, most, b, zeros, QMTD_TABLE_LEN(b, 1)) == QMTD_OK);
        EXPECT(on->check_table(on->q, most + 1, b, zeros, QMTD_TABLE_LEN(b, 1)) == due);
    }

    /* Lengths of a table that are not b runs of 1 to 32 positions, up to two bytes more than the longest table. A table
     * of zeros ascends only in runs of one. */
    for (uint32_t b = QMTD_MIN_B; b <= QMTD_MAX_B; b++)
        for (uint32_t len = 0; len <= sizeof zeros; len++) {
            uint32_t j = len / (2 * b), due = j == 1 ? QMTD_OK : QMTD_BAD_POSITION;
            if (len != QMTD_TABLE_LEN(b, j) || j < QMTD_MIN_J || j > QMTD_MAX_J)
                due = QMTD_BAD_J;
            EXPECT(on->check_table(on->q, K, b, zeros, len) == due);
        }
    EXPECT(QMTD_BAD_BRANCHES == 10 && QMTD_MIN_B == 1 && QMTD_MAX_B == 8 && QMTD_MAX_DATA == 4096);
}

int main(void)
{
    setvbuf(stdout, NULL, _IONBF, 0); /* what was found is shown even if the archive crashes the program */
    version();
    for (int i = 0; i < 2; i++) {
        on = i == 0 ? &byte_pages : &bit_pages;
        null_with_length_0();
        null_in_open_and_pass();
        null_in_explain();
        counts_length();
        odd_table();
        falling_thresholds();
        one_by_one();
        explanations();
        branches();
    }
    on = &byte_pages;
    null_in_decode_counters();
    null_in_outer();
    counters_lent();
    block_lengths();
    names();
    position_bytes();
    number_bytes();
    margin_bytes();
    unaligned();
    q_of_bits();
    bytes_on_bits();
    unaligned_bits();
    recovery();
    printf("%d failures\n", failures);
    return failures == 0 ? 0 : 1;
}
