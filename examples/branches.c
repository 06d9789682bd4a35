/* branches.c - a long table of limits in two branches: two thirds of the page are data, and the code has positions
 * above 255. Shows how data symbols are numbered, damage within the bound, and damage beyond it.
 *
 * branches.expected, what it must print, is made by the reference program (tests/reference/examples.py).
 * Build: cc -std=c99 -Iinclude examples/branches.c build/x86-64/libqmtd.a */
#include "qmtd.h"

#include <stdio.h>
#include <string.h>

/* Branch 0 has the allowed current in ampere, branch 1 the allowed cell voltage above 3,400 mV in steps of 4 mV, each
 * for 16 temperatures and 32 states of charge. The table is one of docs/TABLES.md: a run of 6 positions for each
 * branch. */
enum { Q = 256, K = 512, B = 2, J = 6, DATA = QMTD_DATA_LEN(K, B), CHARGES = 32 };
static const uint8_t table[QMTD_TABLE_LEN(B, J)] = {
    QMTD_POSITION(8), QMTD_POSITION(12), QMTD_POSITION(34),
    QMTD_POSITION(77), QMTD_POSITION(220), QMTD_POSITION(505),
    QMTD_POSITION(30), QMTD_POSITION(68), QMTD_POSITION(108),
    QMTD_POSITION(135), QMTD_POSITION(427), QMTD_POSITION(438)};
static const uint8_t thresholds[] = {1, 1, 0, 0, 0, 0, 0, 0};

static uint8_t sent[DATA], page[QMTD_PAGE_LEN(K, B)], received[sizeof page];
static uint8_t result[DATA], syndrome[K], difference[DATA], margins[QMTD_MARGINS_LEN(K, B)], counts[QMTD_COUNTS_LEN];

static void make_data(void)
{
    static const unsigned at_empty[K / CHARGES] = {0, 0, 4, 8, 16, 24, 32, 40, 40, 40, 36, 32, 24, 16, 8, 0};
    for (unsigned i = 0; i < K; i++) {
        unsigned temperature = i / CHARGES, charge = i % CHARGES;
        sent[i] = (uint8_t)(at_empty[temperature] * (CHARGES - charge) / CHARGES);
        sent[K + i] = (uint8_t)(120 + 2 * temperature + 3 * charge);
    }
}

/* Data symbol i of branch r has the number r * K + i, and is in the checks (i + p) mod K, p the positions of run r. */
static void print_checks(unsigned symbol)
{
    const uint8_t *run = table + QMTD_TABLE_LEN(symbol / K, J);
    printf("Data symbol %u, symbol %u of branch %u, is in the checks", symbol, symbol % K, symbol / K);
    for (int i = 0; i < J; i++)
        printf(" %u", (symbol % K + run[2 * i] + 256u * run[2 * i + 1]) % K);
    printf(".\n");
}

static uint32_t draw(uint32_t below)
{
    static uint32_t state = 1;
    state = state * 1664525u + 1013904223u;
    return (state >> 16) % below;
}

/* The lead replaces so many different symbols of the page by others. */
static void damage(unsigned replaced)
{
    memcpy(received, page, sizeof page);
    while (replaced > 0) {
        uint32_t place = draw(sizeof page);
        if (received[place] != page[place])
            continue;
        received[place] = (uint8_t)((page[place] + 1 + draw(Q - 1)) % Q);
        replaced--;
    }
}

static unsigned wrong(const uint8_t *data)
{
    unsigned n = 0;
    for (int j = 0; j < DATA; j++)
        n += data[j] != sent[j];
    return n;
}

int main(void)
{
    static const unsigned replaced[] = {J / 2, 77, 230};

    make_data();
    if (qmtd_encode(Q, K, B, table, sizeof table, sent, sizeof sent, page, sizeof page) != QMTD_OK)
        return 1;
    printf("A page of %u symbols: %d branches of %d data symbols, and %d checks.\n", (unsigned)sizeof page, B, K, K);
    print_checks(300);
    print_checks(K + 300);
    printf("J is %d and the smallest threshold 0, so the data comes back where at most %d symbols are replaced.\n\n", J,
           J / 2);

    for (size_t i = 0; i < sizeof replaced / sizeof replaced[0]; i++) {
        damage(replaced[i]);
        if (qmtd_decode(Q, K, B, table, sizeof table, received, sizeof received, thresholds, sizeof thresholds,
                        result, sizeof result, syndrome, sizeof syndrome, difference, sizeof difference,
                        margins, sizeof margins, counts, sizeof counts) != QMTD_OK)
            return 1;
        const unsigned passes = qmtd_number(counts), changes = qmtd_number(counts + 4);
        const unsigned start = qmtd_number(counts + 8), end = qmtd_number(counts + 12);
        printf("%u symbols replaced, %s the bound:\n", replaced[i], replaced[i] <= J / 2 ? "within" : "beyond");
        printf("  passes %u, changes %u, distance %u at the start, %u at the end\n", passes, changes, start, end);
        printf("  wrong data symbols: %u as received, %u as decoded\n", wrong(received), wrong(result));
    }
    return 0;
}
