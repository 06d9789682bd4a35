/* outer.c - what the outer check puts right that the passes leave:
 *
 *   outer [--pages N] [PERCENT..]
 *
 * Pages of random data, k = 4,000, one branch, q = 256, are sent by encode, and the same data by encode_outer in blocks
 * of 8, 16 and 50. That share of the page's symbols, drawn at random, is replaced by others: for all four pages at the
 * same places, by adding the same numbers. The first is decoded by decode, the others by decode_outer, with thresholds
 * 1, 1, 0 x 6, and the result is compared with the data as sent. No step changes the last symbol of a block, its outer
 * check. This is none of the caller's own symbols, so that it is counted apart where it is wrong. The pages are the
 * same in every run. */
#define _POSIX_C_SOURCE 199309L
#include "measure.h"
#include "qmtd.h"

#include <stdio.h>
#include <stdlib.h>
#include <string.h>

enum { Q = 256, K = 4000, MAX_PERCENTS = 16 };

static const uint8_t thresholds[] = {1, 1, 0, 0, 0, 0, 0, 0};

/* Spread tables, by `tests/reference/spread.py 4000 1 J`. */
static const uint16_t positions_6[] = {694, 1133, 1474, 3172, 3385, 3591};
static const uint16_t positions_8[] = {268, 694, 1133, 1474, 3172, 3385, 3591, 3627};
static const uint16_t positions_10[] = {268, 694, 1133, 1474, 2745, 2844, 3172, 3385, 3591, 3627};
static const struct code {
    uint32_t j;
    const uint16_t *positions;
} codes[] = {{6, positions_6}, {8, positions_8}, {10, positions_10}};
enum { CODES = sizeof codes / sizeof codes[0] };

/* Block lengths; 0 is no outer check. */
static const uint32_t blocks[] = {0, 8, 16, 50};
enum { WAYS = sizeof blocks / sizeof blocks[0] };

/* The caller's own symbols that are wrong, the pages with at least one of them, and the outer checks that are wrong. */
struct wrong {
    unsigned long own, pages, last;
};

static uint8_t table[QMTD_TABLE_LEN(1, QMTD_MAX_J)], data[K], page[2 * K], added[2 * K];
static uint8_t result[K], syndrome[K], difference[K], margins[QMTD_MARGINS_LEN(K, 1)], counts[QMTD_COUNTS_LEN];

static void expect_ok(uint32_t number, const char *call)
{
    if (number != QMTD_OK) {
        fprintf(stderr, "%s returned %u\n", call, (unsigned)number);
        exit(1);
    }
}

/* Draws data, and what is added to which symbols of its page. */
static void draw_page(unsigned percent)
{
    for (uint32_t i = 0; i < K; i++)
        data[i] = (uint8_t)draw(Q);
    memset(added, 0, sizeof added);
    for (uint32_t left = (2 * K * percent + 99) / 100; left > 0;) {
        uint32_t at = draw(2 * K);
        if (added[at] == 0) {
            added[at] = (uint8_t)(1 + draw(Q - 1));
            left--;
        }
    }
}

/* Sends the data, damages the page and decodes it, in blocks of this length; counts what is then wrong. */
static void count_wrong(uint32_t table_len, uint32_t block, struct wrong *wrong)
{
    uint8_t sent[K];
    if (block == 0)
        expect_ok(qmtd_encode(Q, K, 1, table, table_len, data, K, page, sizeof page), "qmtd_encode");
    else
        expect_ok(qmtd_encode_outer(Q, K, 1, table, table_len, block, data, K, page, sizeof page), "qmtd_encode_outer");
    memcpy(sent, page, K);
    for (uint32_t i = 0; i < 2 * K; i++)
        page[i] = (uint8_t)(page[i] + added[i]);
    if (block == 0)
        expect_ok(qmtd_decode(Q, K, 1, table, table_len, page, sizeof page, thresholds, sizeof thresholds, result, K,
                              syndrome, K, difference, K, margins, sizeof margins, counts, sizeof counts),
                  "qmtd_decode");
    else
        expect_ok(qmtd_decode_outer(Q, K, 1, table, table_len, block, page, sizeof page, thresholds, sizeof thresholds,
                                    result, K, syndrome, K, difference, K, margins, sizeof margins,
                                    counts, sizeof counts),
                  "qmtd_decode_outer");
    const unsigned long before = wrong->own;
    for (uint32_t i = 0; i < K; i++)
        if (result[i] != sent[i]) {
            int last = block != 0 && i % block == block - 1;
            wrong->own += !last;
            wrong->last += last;
        }
    wrong->pages += wrong->own > before;
}

static void measure(const struct code *code, unsigned percent, unsigned pages, struct wrong *wrong)
{
    const uint32_t table_len = QMTD_TABLE_LEN(1, code->j);
    for (uint32_t a = 0; a < code->j; a++) {
        table[2 * a] = (uint8_t)(code->positions[a] & 255);
        table[2 * a + 1] = (uint8_t)(code->positions[a] >> 8);
    }
    generator = 0x9E3779B97F4A7C15u;
    for (unsigned i = 0; i < pages; i++) {
        draw_page(percent);
        for (int way = 0; way < WAYS; way++)
            count_wrong(table_len, blocks[way], &wrong[way]);
    }
}

/* What is wrong, and what part of the own symbols' error rate without an outer check that is. */
static void print_cell(const struct wrong *wrong, uint32_t block, const struct wrong *without)
{
    printf(" %lu in %lu", wrong->own, wrong->pages);
    if (block != 0 && wrong->own > 0)
        printf(", 1/%.0f", (double)without->own * (block - 1) / block / (double)wrong->own);
    if (block != 0)
        printf(" (%lu)", wrong->last);
    printf(" |");
}

int main(int argc, char **argv)
{
    unsigned percents[MAX_PERCENTS] = {5, 10, 15}, shares = 3, given = 0, pages = 5000;
    for (int i = 1; i < argc; i++)
        if (strcmp(argv[i], "--pages") == 0 && i + 1 < argc) {
            pages = (unsigned)strtoul(argv[++i], NULL, 10);
        } else if (given < MAX_PERCENTS) {
            percents[given++] = (unsigned)strtoul(argv[i], NULL, 10);
            shares = given;
        }

    printf("Of %u pages with %u data symbols each: the caller's own symbols still wrong, and in how many pages; what\n"
           "part of their error rate without an outer check that is; in brackets the outer checks still wrong.\n"
           "Document 002 states a part below 1/100, at L = 50.\n\n",
           pages, (unsigned)K);
    printf("| J, damage | decode | L = 8 | L = 16 | L = 50 |\n|---|---|---|---|---|\n");
    for (int c = 0; c < CODES; c++)
        for (unsigned i = 0; i < shares; i++) {
            struct wrong wrong[WAYS] = {{0, 0, 0}};
            measure(&codes[c], percents[i], pages, wrong);
            printf("| %u, %u %% |", (unsigned)codes[c].j, percents[i]);
            for (int way = 0; way < WAYS; way++)
                print_cell(&wrong[way], blocks[way], &wrong[0]);
            printf("\n");
            fflush(stdout);
        }
    return 0;
}
