/* charger.c - a battery pack sends its table of allowed currents over a noisy lead; the charger decodes it and decides
 * about the relay. Shows a page put right, damage beyond the bound, and a refused call.
 *
 * Build: cc -std=c99 -Iinclude examples/charger.c build/x86-64/libqmtd.a */
#include "qmtd.h"

#include <stdio.h>
#include <string.h>

/* The code: one branch of 13 data symbols of any byte value, positions 0, 1, 4, 6. J is 4, and the smallest
 * threshold is 0, so the data comes back whole from any page with at most 2 symbols replaced: 2 * 2 + 0 <= 4. */
enum { Q = 256, K = 13, B = 1, J = 4 };
static const uint8_t table[QMTD_TABLE_LEN(B, J)] = {QMTD_POSITION(0), QMTD_POSITION(1),
                                                    QMTD_POSITION(4), QMTD_POSITION(6)};
static const uint8_t thresholds[] = {0, 0, 0};

/* Allowed charging current in ampere at -20, -15, .. 40 degrees. */
static const uint8_t allowed[K] = {0, 0, 4, 8, 16, 24, 32, 40, 40, 32, 24, 8, 0};

struct decoded {
    uint8_t limits[K], syndrome[K], difference[K], margins[QMTD_MARGINS_LEN(K, B)], counts[QMTD_COUNTS_LEN];
};

static unsigned count(const struct decoded *d, int which)
{
    return qmtd_number(d->counts + 4 * which);
}

static uint32_t decode(const uint8_t *page, size_t page_len, struct decoded *d)
{
    return qmtd_decode(Q, K, B, table, sizeof table, page, page_len, thresholds, sizeof thresholds, d->limits, K,
                       d->syndrome, K, d->difference, K, d->margins, sizeof d->margins, d->counts, sizeof d->counts);
}

static void print_counts(const struct decoded *d)
{
    printf("  passes %u, changes %u, distance %u at the start, %u at the end\n",
           count(d, 0), count(d, 1), count(d, 2), count(d, 3));
}

/* The charger's decision: close the relay only if the current is allowed at this temperature. */
static void relay(const uint8_t *limits, int degrees, unsigned ampere)
{
    unsigned limit = limits[(degrees + 20) / 5];
    printf("  %u A at %d degrees: limit %u A, relay %s\n", ampere, degrees, limit, ampere <= limit ? "CLOSED" : "open");
}

int main(void)
{
    uint8_t page[QMTD_PAGE_LEN(K, B)], received[sizeof page];
    struct decoded d;

    if (qmtd_version() != QMTD_VERSION_NUMBER)
        return 1;

    puts("The pack encodes its limits:");
    if (qmtd_encode(Q, K, B, table, sizeof table, allowed, K, page, sizeof page) != QMTD_OK)
        return 1;
    for (int i = 0; i < 2 * K; i++)
        printf("%s%4d", i == 0 ? "  data  " : i == K ? "\n  checks" : "", page[i]);

    puts("\n\nThe lead replaces two symbols, data 3 and check 9. As received:");
    memcpy(received, page, sizeof page);
    received[3] = 200;
    received[K + 9] = 1;
    relay(received, -5, 30);
    puts("Decoded:");
    if (decode(received, sizeof received, &d) != QMTD_OK || memcmp(d.limits, allowed, K) != 0)
        return 1;
    print_counts(&d);
    relay(d.limits, -5, 30);
    puts("  Two is within the bound: these are the pack's limits.");

    puts("\nThe lead adds 5 to three checks of data 0:");
    memcpy(received, page, sizeof page);
    received[K + 0] = (uint8_t)(page[K + 0] + 5);
    received[K + 1] = (uint8_t)(page[K + 1] + 5);
    received[K + 4] = (uint8_t)(page[K + 4] + 5);
    if (decode(received, sizeof received, &d) != QMTD_OK || d.limits[0] != allowed[0] + 5)
        return 1;
    print_counts(&d);
    relay(d.limits, -20, 5);
    puts("  Three is beyond the bound: nearer to the page received, and still not what was sent.\n"
         "  The call cannot tell. Keep the damage within the bound, or add a check of your own.");

    puts("\nThe last symbol is lost:");
    struct decoded before = d;
    uint32_t number = decode(received, sizeof received - 1, &d);
    if (number != QMTD_BAD_LENGTH || memcmp(&d, &before, sizeof d) != 0)
        return 1;
    printf("  refused with %u: a buffer has not the length that the call needs. Nothing was written, relay open.\n",
           (unsigned)number);
    return 0;
}
