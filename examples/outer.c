/* outer.c - limits sent in blocks with an outer check: damage that decode leaves wrong and an outer step puts right,
 * damage that is too much for both, and a block length that is refused.
 *
 * outer.expected, what it must print, is made by the reference program (tests/reference/examples.py). The first page is
 * case 10 of the paper, on other data.
 * Build: cc -std=c99 -Iinclude examples/outer.c build/x86-64/libqmtd.a */
#include "qmtd.h"

#include <stdio.h>
#include <string.h>

/* One branch of 16 data symbols in two blocks of 8, of which the last is the outer check: 14 limits are the pack's own.
 * J is 4, the smallest threshold 0: the bound is 2 replaced symbols, with an outer check or without. */
enum { Q = 256, K = 16, B = 1, J = 4, BLOCK = 8, OWN = 14 };
static const uint8_t table[QMTD_TABLE_LEN(B, J)] = {QMTD_POSITION(0), QMTD_POSITION(1),
                                                    QMTD_POSITION(4), QMTD_POSITION(6)};
static const uint8_t thresholds[] = {0, 0, 0};

/* Allowed charging current in ampere at -20, -15, .. 45 degrees. */
static const uint8_t allowed[OWN] = {0, 0, 4, 8, 16, 24, 32, 40, 40, 32, 24, 8, 0, 0};

static uint8_t page[QMTD_PAGE_LEN(K, B)], received[sizeof page];
static uint8_t result[K], syndrome[K], difference[K], margins[QMTD_MARGINS_LEN(K, B)], counts[QMTD_COUNTS_LEN];

/* The data symbol of limit i: BLOCK - 1 of them to a block. */
static int place(int i)
{
    return i + i / (BLOCK - 1);
}

/* Adds a number to three checks of the page received. */
static void add_to_checks(unsigned number, int a, int b, int c)
{
    received[K + a] = (uint8_t)(received[K + a] + number);
    received[K + b] = (uint8_t)(received[K + b] + number);
    received[K + c] = (uint8_t)(received[K + c] + number);
}

static void print_result(const char *call)
{
    const unsigned passes = qmtd_number(counts), changes = qmtd_number(counts + 4);
    const unsigned start = qmtd_number(counts + 8), end = qmtd_number(counts + 12);
    int wrong = 0;
    printf("  %s: passes %u, changes %u, distance %u at the start, %u at the end\n", call, passes, changes, start, end);
    for (int i = 0; i < OWN; i++)
        if (result[place(i)] != allowed[i])
            printf("%s %d A for %d A at %d degrees", wrong++ ? "," : "   ", result[place(i)], allowed[i], 5 * i - 20);
    printf(wrong ? "\n" : "    all limits as sent\n");
}

/* Decodes the page received without the outer check, then with it. Were both calls taken? */
static int decode(void)
{
    if (qmtd_decode(Q, K, B, table, sizeof table, received, sizeof received, thresholds, sizeof thresholds, result, K,
                    syndrome, K, difference, K, margins, sizeof margins, counts, sizeof counts) != QMTD_OK)
        return 0;
    print_result("decode      ");
    if (qmtd_decode_outer(Q, K, B, table, sizeof table, BLOCK, received, sizeof received, thresholds,
                          sizeof thresholds, result, K, syndrome, K, difference, K, margins, sizeof margins,
                          counts, sizeof counts) != QMTD_OK)
        return 0;
    print_result("decode_outer");
    return 1;
}

int main(void)
{
    uint8_t data[K] = {0}; /* what stands at the last place of a block is ignored */
    for (int i = 0; i < OWN; i++)
        data[place(i)] = allowed[i];

    puts("The pack encodes its limits, in blocks whose last symbol makes them sum to 0 modulo 256:");
    if (qmtd_encode_outer(Q, K, B, table, sizeof table, BLOCK, data, K, page, sizeof page) != QMTD_OK)
        return 1;
    for (int i = 0; i < 2 * K; i++)
        printf("%s%4d%s", i % BLOCK != 0 ? "" : i < K ? "  block   " : i == K ? "  checks  " : "          ", page[i],
               i % BLOCK == BLOCK - 1 ? "\n" : "");

    puts("\nThe lead adds 5 to three checks of symbol 0, which is beyond the bound:");
    memcpy(received, page, sizeof page);
    add_to_checks(5, 0, 1, 4);
    if (!decode())
        return 1;
    puts("  The block sums to 5, and symbol 0 is its least reliable symbol: the outer step subtracts 5 there.");

    puts("\nThe lead also adds 9 to three checks of symbol 2, in the same block:");
    add_to_checks(9, 2, 3, 8);
    if (!decode())
        return 1;
    puts("  Two symbols of the block are wrong: no step puts both right, and the call cannot tell.");

    puts("\nThe charger has another block length than the pack:");
    uint32_t number = qmtd_decode_outer(Q, K, B, table, sizeof table, 6, received, sizeof received, thresholds,
                                        sizeof thresholds, result, K, syndrome, K, difference, K,
                                        margins, sizeof margins, counts, sizeof counts);
    if (number != QMTD_BAD_BLOCK)
        return 1;
    printf("  refused with %u: 6 does not divide %d. One that does would be taken: the page does not hold it.\n",
           (unsigned)number, K);
    return 0;
}
