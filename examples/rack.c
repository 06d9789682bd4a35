/* rack.c - a bench serves 32 leads on one rack: in each of its first turns the pages of eight packs arrive, damaged, and
 * are loaded; then the rack gets a budget of visits; then finished pages are taken away. Between the turns it shows how
 * far each lead is. Each result is compared with what its pack sent, and with what qmtd_decode gives for the page alone.
 *
 * rack.expected, what it must print, is made by the reference program (tests/reference/examples.py).
 * Build: cc -std=c99 -Iinclude examples/rack.c build/x86-64/libqmtd.a */
#include "qmtd_rack.h"

#include <stdio.h>
#include <string.h>

/* One branch of 13 data symbols. J is 4, the smallest threshold 0: the bound is 2 replaced symbols. */
enum { Q = 256, K = 13, B = 1, J = 4, PAGE = QMTD_PAGE_LEN(K, B), LEADS = QMTD_RACK_LEADS, ARRIVE = 8, BUDGET = 200 };
static const uint8_t table[QMTD_TABLE_LEN(B, J)] = {QMTD_POSITION(0), QMTD_POSITION(1),
                                                    QMTD_POSITION(4), QMTD_POSITION(6)};
static const uint8_t thresholds[] = {1, 1, 0, 0};

/* What pack n sends: its allowed charging currents in ampere at -20, -15, .. 40 degrees, and the page as it arrives. */
static uint8_t sent[LEADS][K], pages[LEADS][PAGE];

/* The rack, and what a call on it takes besides. */
static struct qmtd_lead leads[QMTD_RACK_LEADS];
static uint8_t last[QMTD_RACK_LAST_LEN], results[QMTD_RACK_DATA_LEN(K, B)], syndromes[QMTD_RACK_SYNDROMES_LEN(K)];
static uint8_t differences[QMTD_RACK_DATA_LEN(K, B)], made[QMTD_RACK_MADE_LEN];

#define RACK leads, LEADS, last, sizeof last, results, sizeof results, syndromes, sizeof syndromes, \
             differences, sizeof differences
#define CODE Q, K, B, table, sizeof table
#define LIST thresholds, sizeof thresholds

/* The page of pack n arrives with n % 4 symbols replaced: scattered ones, but of packs 7, 15, 23 and 31 three checks of
 * data symbol 0. */
static int receive(uint32_t n)
{
    static const uint8_t limits[K] = {0, 0, 4, 8, 16, 24, 32, 40, 40, 32, 24, 8, 0};
    static const uint32_t checks_of_0[] = {K + 0, K + 1, K + 4};
    for (uint32_t i = 0; i < K; i++)
        sent[n][i] = (uint8_t)(limits[i] * (8 + n % 5) / 8);
    if (qmtd_encode(CODE, sent[n], K, pages[n], PAGE) != QMTD_OK)
        return 0;
    for (uint32_t i = 0; i < n % 4; i++)
        pages[n][n % 8 == 7 ? checks_of_0[i] : (5 * n + 9 * i) % PAGE] += 5;
    return 1;
}

/* Does qmtd_decode give this result and these counts for a page alone? */
static int alone(uint32_t n, const uint8_t *result, const uint8_t *counts)
{
    static uint8_t own[K], syndrome[K], difference[K], margins[QMTD_MARGINS_LEN(K, B)], own_counts[QMTD_COUNTS_LEN];
    return qmtd_decode(CODE, pages[n], PAGE, LIST, own, K, syndrome, K, difference, K, margins, sizeof margins,
                       own_counts, sizeof own_counts) == QMTD_OK &&
           memcmp(own, result, K) == 0 && memcmp(own_counts, counts, QMTD_COUNTS_LEN) == 0;
}

/* A character for each lead: "." is a free one, "*" a finished page, and a number the passes that are run. */
static void print_progress(void)
{
    for (uint32_t n = 0; n < LEADS; n++) {
        const char number = (char)('0' + leads[n].passes), of[] = {'.', number, '*'};
        putchar(of[leads[n].holds]);
    }
}

int main(void)
{
    uint8_t result[K], counts[QMTD_COUNTS_LEN];
    unsigned taken = 0, as_sent = 0, as_alone = 0, changes = 0;
    if (qmtd_rack_new(leads, LEADS, last, sizeof last) != QMTD_OK)
        return 1;

    printf("%d leads; in each of the first turns %d pages arrive, and a turn has %d visits.\n", LEADS, ARRIVE, BUDGET);
    for (unsigned turn = 1, arrived = 0; taken < LEADS; turn++) {
        for (unsigned end = arrived + ARRIVE; arrived < LEADS && arrived < end; arrived++)
            if (!receive(arrived) || qmtd_rack_load(RACK, CODE, LIST, arrived, pages[arrived], PAGE) != QMTD_OK)
                return 1;
        if (qmtd_rack_run(RACK, CODE, LIST, BUDGET, made, sizeof made) != QMTD_OK)
            return 1;
        printf("turn %u  ", turn);
        print_progress();
        printf("  %3u visits, the last to lead %2u", (unsigned)qmtd_number(made), (unsigned)last[0]);

        for (uint32_t n = 0; n < LEADS; n++)
            if (leads[n].holds == QMTD_LEAD_FINISHED) {
                if (qmtd_rack_take(RACK, CODE, LIST, n, result, K, counts, sizeof counts) != QMTD_OK)
                    return 1;
                taken++;
                as_sent += memcmp(result, sent[n], K) == 0;
                as_alone += (unsigned)alone(n, result, counts);
                changes += (unsigned)qmtd_number(counts + 4);
            }
        printf(", %2u taken away\n", taken);
    }

    printf("\n%u pages taken away, %u changes: %u as sent, and %u as qmtd_decode gives them alone.\n", taken, changes,
           as_sent, as_alone);
    printf("Eight pages had three symbols replaced, one more than the bound; no call can tell which came out wrong.\n");
    printf("Load on a lead that is not there: refused with %u; take from a free one: refused with %u.\n",
           (unsigned)qmtd_rack_load(RACK, CODE, LIST, LEADS, pages[0], PAGE),
           (unsigned)qmtd_rack_take(RACK, CODE, LIST, 0, result, K, counts, sizeof counts));
    return 0;
}
