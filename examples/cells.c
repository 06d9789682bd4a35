/* cells.c - the readings of a cell monitor, sent as whole 16-bit symbols: two strings of 27 cells, in two branches.
 * Damage within the bound, damage beyond it, and a page with a byte lost.
 *
 * cells.expected, what it must print, is made by the reference program (tests/reference/examples.py).
 * Build: cc -std=c99 -Iinclude examples/cells.c build/x86-64/libqmtd.a */
#include "qmtd_wide.h"

#include <stdio.h>
#include <string.h>

/* The table is one of docs/TABLES.md: a run of 4 positions for each string. The smallest threshold is 0, so the bound is
 * 2 replaced symbols. */
enum { K = 27, B = 2, J = 4, CELLS = K * B, LINE = 9 };
static const uint8_t table[QMTD_TABLE_LEN(B, J)] = {
    QMTD_POSITION(0), QMTD_POSITION(3), QMTD_POSITION(7), QMTD_POSITION(8),
    QMTD_POSITION(0), QMTD_POSITION(9), QMTD_POSITION(11), QMTD_POSITION(21)};
static const uint8_t thresholds[] = {1, 1, 0, 0, 0, 0, 0, 0};

/* A cell may have from 2,800 to 4,200 millivolts. */
enum { LOW = 2800, HIGH = 4200 };

/* Symbols are bytes, two each. */
enum { W = QMTD_U16_WIDTH };
static uint8_t sent[QMTD_WIDE_DATA_LEN(W, K, B)], page[QMTD_WIDE_PAGE_LEN(W, K, B)], received[sizeof page];
static uint8_t result[sizeof sent], syndrome[QMTD_WIDE_SYNDROME_LEN(W, K)], difference[sizeof sent];
static uint8_t margins[QMTD_MARGINS_LEN(K, B)], counts[QMTD_COUNTS_LEN];

static void print_readings(const uint8_t *readings)
{
    for (unsigned i = 0; i < CELLS; i++) {
        if (i % K == 0)
            printf("  string %u", i / K);
        else if (i % LINE == 0)
            printf("          ");
        printf(" %5u%s", (unsigned)qmtd_u16_symbol(readings, i), i % LINE == LINE - 1 ? "\n" : "");
    }
}

/* How many readings are not those sent, and how many are out of limits, with the first of these. */
static void print_wrong(const char *name, const uint8_t *readings)
{
    unsigned wrong = 0, out = 0, first = 0;
    for (unsigned i = CELLS; i-- > 0;) {
        const unsigned millivolts = qmtd_u16_symbol(readings, i);
        wrong += millivolts != qmtd_u16_symbol(sent, i);
        if (millivolts < LOW || millivolts > HIGH) {
            first = i;
            out++;
        }
    }
    printf("  %s: wrong readings %u, out of limits %u", name, wrong, out);
    if (out > 0)
        printf(", first %u mV of cell %u, string %u", (unsigned)qmtd_u16_symbol(readings, first), first % K, first / K);
    printf("\n");
}

/* Decodes the page received and prints what came of it. Was the call taken? */
static int decode(void)
{
    if (qmtd_u16_decode(K, B, table, sizeof table, received, sizeof received, thresholds, sizeof thresholds,
                        result, sizeof result, syndrome, sizeof syndrome, difference, sizeof difference,
                        margins, sizeof margins, counts, sizeof counts) != QMTD_OK)
        return 0;
    unsigned weak = 0;
    for (unsigned i = 0; i < CELLS; i++)
        weak += qmtd_margin(margins, i) <= 0;
    print_wrong("received", received);
    print_wrong("decoded ", result);
    printf("  passes %u, changes %u, distance %u at the start, %u at the end, readings with a margin of 0 or less: %u\n",
           (unsigned)qmtd_number(counts), (unsigned)qmtd_number(counts + 4), (unsigned)qmtd_number(counts + 8),
           (unsigned)qmtd_number(counts + 12), weak);
    return 1;
}

int main(void)
{
    for (unsigned i = 0; i < CELLS; i++)
        qmtd_u16_put_symbol(sent, i, (uint16_t)(3650 + 37 * i % 90 - (i == 40 ? 800 : 0)));
    if (qmtd_u16_encode(K, B, table, sizeof table, sent, sizeof sent, page, sizeof page) != QMTD_OK)
        return 1;
    printf("%u bytes for %d readings in millivolts and %d checks:\n", (unsigned)sizeof page, CELLS, K);
    print_readings(sent);
    printf("  check 0 is %u, the sum of %d readings modulo 65536\n", (unsigned)qmtd_u16_symbol(page, CELLS), B * J);

    puts("\nThe lead inverts the highest bit of a reading and clears a check:");
    memcpy(received, page, sizeof page);
    received[W * 17 + 1] ^= 0x80;
    qmtd_u16_put_symbol(received, CELLS + 5, 0);
    if (!decode() || memcmp(result, sent, sizeof sent) != 0)
        return 1;
    puts("  Two symbols are within the bound: these are the monitor's readings.");

    puts("\nA burst sets 16 bytes to 255, eight readings in a row:");
    memcpy(received, page, sizeof page);
    memset(received + W * 30, 255, W * 8);
    if (!decode())
        return 1;
    puts("  Eight symbols are beyond the bound: the call cannot tell whether all are right.");

    puts("\nThe last byte is lost:");
    uint32_t number = qmtd_u16_decode(K, B, table, sizeof table, received, sizeof received - 1,
                                      thresholds, sizeof thresholds, result, sizeof result,
                                      syndrome, sizeof syndrome, difference, sizeof difference,
                                      margins, sizeof margins, counts, sizeof counts);
    if (number != QMTD_BAD_LENGTH)
        return 1;
    printf("  refused with %u: the page ends within a symbol. Nothing was written.\n", (unsigned)number);
    return 0;
}
