/* votes.c - measures both votes of the library alone, in one run: pair by pair and by counters.
 *   votes [--count | pairs | counters]
 *
 * A round is one call: the vote over each of many lists. For each J and kind of estimates both votes first make a round
 * over the same lists, and the checksums that they return are compared. Then they take turns for some rounds, and the
 * fastest of each counts.
 *
 *   --count           makes one round of each, for bench/count
 *   pairs, counters   makes one round of this vote alone; nothing is compared */
#define _POSIX_C_SOURCE 199309L
#include "measure.h"
#include "qmtd.h"

#include <stdio.h>
#include <string.h>

/* The votes over all lists of `each` estimates, one list after the other: their sum, where a vote is the leader, its
 * count, the next count and the zeros, a byte each, the leader lowest. The crate votes has the contracts. */
uint32_t qmtd_bench_votes_pairs(const uint8_t *lists, uint64_t len, uint32_t each);
uint32_t qmtd_bench_votes_counted(const uint8_t *lists, uint64_t len, uint32_t each, uint8_t *counters,
                                  uint64_t counters_len);

/* ---- The lists ---- */

static const uint32_t js[] = {4, 12, 32};
enum { JS = sizeof js / sizeof js[0] };

enum kind { NEARLY_ZERO, HALF_ZERO, DIFFERENT, KINDS };
static const char *const kind_names[] = {"all zero but one", "half zero, others differ", "all differ"};

enum { LISTS = 512, ROUNDS = 400 };

struct row {
    char name[48];
    uint32_t each; /* estimates of a list: J + 1 */
    uint8_t lists[LISTS * (QMTD_MAX_J + 1)];
};

/* Fills a list: so many zeros, the others different, all at any place. Where there are no zeros 0 is one of the values
 * that may be drawn. */
static void make_list(uint8_t *list, uint32_t len, uint32_t zeros)
{
    uint8_t taken[256] = {zeros > 0};
    memset(list, 0, len);
    for (uint32_t i = zeros; i < len; i++) {
        uint32_t value;
        do
            value = draw(256);
        while (taken[value]);
        taken[value] = 1;
        list[i] = (uint8_t)value;
    }
    for (uint32_t i = len - 1; i > 0; i--) {
        uint32_t other = draw(i + 1);
        uint8_t value = list[i];
        list[i] = list[other];
        list[other] = value;
    }
}

static void make_row(struct row *row, uint32_t j, enum kind kind)
{
    row->each = j + 1;
    snprintf(row->name, sizeof row->name, "J=%u %s", (unsigned)j, kind_names[kind]);
    generator = 0x9E3779B97F4A7C15u;
    const uint32_t zeros = kind == NEARLY_ZERO ? j : kind == HALF_ZERO ? row->each / 2 : 0;
    for (uint32_t i = 0; i < LISTS; i++)
        make_list(row->lists + i * row->each, row->each, zeros);
}

/* ---- The votes ---- */

enum vote { PAIRS, COUNTERS, VOTES };
static const char *const vote_names[] = {"pairs", "counters"};

static uint8_t counters[QMTD_COUNTERS_LEN];

/* The checksum of a round. */
static uint32_t make_round(enum vote vote, const struct row *row)
{
    const uint64_t len = (uint64_t)LISTS * row->each;
    return vote == PAIRS ? qmtd_bench_votes_pairs(row->lists, len, row->each)
                         : qmtd_bench_votes_counted(row->lists, len, row->each, counters, sizeof counters);
}

/* Do both votes have one checksum, and are the counters all 0 afterwards? */
static int agree(const struct row *row)
{
    static const uint8_t zeros[QMTD_COUNTERS_LEN];
    uint32_t pairs = make_round(PAIRS, row), counted = make_round(COUNTERS, row);
    if (pairs == counted && memcmp(counters, zeros, sizeof zeros) == 0)
        return 1;
    fprintf(stderr, "%s: pairs %08x, counters %08x\n", row->name, (unsigned)pairs, (unsigned)counted);
    return 0;
}

/* bench/count collects the instructions inside this function, by its name: it has no copies under another one. */
__attribute__((noinline, noclone)) void counted_call(enum vote, const struct row *);

void counted_call(enum vote vote, const struct row *row)
{
    make_round(vote, row);
}

/* The fastest of many rounds of each vote, in turn, in nanoseconds a vote. */
static void print_row(const struct row *row)
{
    double best[VOTES] = {1e18, 1e18};
    for (int round = 0; round < ROUNDS; round++)
        for (enum vote vote = PAIRS; vote < VOTES; vote++) {
            double start = now();
            counted_call(vote, row);
            double taken = (now() - start) / LISTS;
            if (taken < best[vote])
                best[vote] = taken;
        }
    printf("%-36s %11.2f %11.2f %11.2f\n", row->name, best[PAIRS], best[COUNTERS], best[PAIRS] / best[COUNTERS]);
}

int main(int argc, char **argv)
{
    const char *which = argc == 2 ? argv[1] : "";
    const int both = argc == 1 || strcmp(which, "--count") == 0;
    int wanted[VOTES], any = 0;
    for (enum vote vote = PAIRS; vote < VOTES; vote++)
        any |= wanted[vote] = both || strcmp(which, vote_names[vote]) == 0;
    if (!any) {
        fprintf(stderr, "votes [--count | pairs | counters]\n");
        return 2;
    }

    if (argc == 1)
        printf("%-36s %11s %11s %11s\n", "nanoseconds a vote", "pairs", "counters", "ratio");
    for (int j = 0; j < JS; j++)
        for (enum kind kind = NEARLY_ZERO; kind < KINDS; kind++) {
            static struct row row;
            make_row(&row, js[j], kind);
            if (both && !agree(&row))
                return 1;
            if (argc == 1) {
                print_row(&row);
                continue;
            }
            for (enum vote vote = PAIRS; vote < VOTES; vote++)
                if (wanted[vote]) {
                    counted_call(vote, &row);
                    printf("%d\t%s\t%s\n", LISTS, vote_names[vote], row.name);
                }
        }
    return 0;
}
