/* rack.c - measures the visits of a rack beside decode's own passes on the same pages, with one lead and with 32, in
 * one run:  rack [--quick] [--ns] [--rows FILTER], which bench/run --rack makes.
 *
 * The pages of a row are first put through all ways, and the results and counts are compared. Then, sweep by sweep, row
 * by row and round by round, each way runs in turn; its fastest round counts. What stands before the visits, a rack
 * loaded or a page opened, is not in the time.
 *
 *   --quick         fewer rounds
 *   --ns            nanoseconds a visit for all, instead of ratios
 *   --rows FILTER   only the rows with FILTER in their name
 *   --count         makes each way's calls once, clean and with 5 %, for bench/count --rack */
#define _POSIX_C_SOURCE 199309L
#include "codes.h"
#include "measure.h"
#include "qmtd_rack.h"

/* ---- Codes, pages and rows ---- */

/* The first is the example of document 01; spread is coprime to k. */
static const struct code codes[] = {{13, 1, 4, 1}, {1021, 1, 12, 388}, {4096, 1, 10, 1531}, {1024, 4, 8, 387}};
enum { CODES = sizeof codes / sizeof codes[0], Q = 256 };

static const uint32_t damages[] = {0, 1, 5, 10}; /* symbols replaced, in percent */
enum { DAMAGES = sizeof damages / sizeof damages[0] };

static const uint32_t loads[] = {1, QMTD_RACK_LEADS}; /* leads with a page */
enum { LOADS = sizeof loads / sizeof loads[0], MAX_ROWS = CODES * DAMAGES * LOADS };

static struct row {
    char name[80];
    uint32_t k, b, symbols, leads; /* data symbols of all branches; leads with a page */
    uint8_t table[QMTD_MAX_TABLE_LEN], thresholds[4], pages[QMTD_RACK_LEADS][QMTD_MAX_PAGE_LEN];
    size_t table_len;
} row;

/* Result, syndromes and differences of all leads, and of a rack its records and the lead served last. */
static struct state {
    struct qmtd_lead leads[QMTD_RACK_LEADS];
    uint8_t last[QMTD_RACK_LAST_LEN], results[QMTD_RACK_DATA_LEN(QMTD_MAX_DATA, 1)];
    uint8_t syndromes[QMTD_RACK_SYNDROMES_LEN(QMTD_MAX_K)], differences[QMTD_RACK_DATA_LEN(QMTD_MAX_DATA, 1)];
} loaded, at_work;

/* What decode gives for each page: its result and its counts, and the thresholds of the passes that it runs. */
static struct decoded {
    uint8_t result[QMTD_MAX_DATA], counts[QMTD_COUNTS_LEN], run[4];
    uint32_t passes;
} decoded[QMTD_RACK_LEADS];

#define CODE Q, row.k, row.b, row.table, row.table_len
#define LIST row.thresholds, sizeof row.thresholds
#define RACK(state)                                                                                              \
    (state).leads, QMTD_RACK_LEADS, (state).last, sizeof(state).last, (state).results,                           \
        QMTD_RACK_DATA_LEN(row.k, row.b), (state).syndromes, QMTD_RACK_SYNDROMES_LEN(row.k), (state).differences, \
        QMTD_RACK_DATA_LEN(row.k, row.b)

static void fail(const char *what)
{
    fprintf(stderr, "%s: %s\n", row.name, what);
    exit(1);
}

/* Draws the page of a lead: data, encoded, then the damage, rounded up to whole symbols. */
static void make_page(uint8_t *page, uint32_t damage)
{
    uint8_t data[QMTD_MAX_DATA], replaced[QMTD_MAX_PAGE_LEN] = {0};
    uint32_t n = row.symbols + row.k;
    for (uint32_t i = 0; i < row.symbols; i++)
        data[i] = (uint8_t)draw(Q);
    if (qmtd_encode(CODE, data, row.symbols, page, n) != QMTD_OK)
        fail("the library refuses the table");
    for (uint32_t left = (n * damage + 99) / 100; left > 0;) {
        uint32_t i = draw(n);
        if (replaced[i])
            continue;
        replaced[i] = 1;
        page[i] = (uint8_t)(page[i] + 1 + draw(Q - 1));
        left--;
    }
}

/* ---- The ways ---- */

enum way { ONE_BUDGET, SMALL_BUDGETS, PASSES, DECODE, WAYS };
static const char *const way_names[WAYS] = {"rack", "by 1,000", "passes", "decode"};
enum { SMALL_BUDGET = 1000 };

/* Visits of a rack, with budgets of this size, until no lead has work due. */
static void make_visits(uint32_t budget)
{
    uint8_t made[QMTD_RACK_MADE_LEN];
    do {
        if (qmtd_rack_run(RACK(at_work), CODE, LIST, budget, made, sizeof made) != QMTD_OK)
            fail("a run is refused");
    } while (qmtd_number(made) == budget);
}

/* The passes that decode runs, one by one, on the opened page of each lead. */
static void make_passes(void)
{
    uint8_t changes[QMTD_CHANGES_LEN];
    for (uint32_t lead = 0; lead < row.leads; lead++)
        for (uint32_t pass = 0; pass < decoded[lead].passes; pass++)
            if (qmtd_pass(CODE, decoded[lead].run[pass], at_work.results + lead * row.symbols, row.symbols,
                          at_work.syndromes + lead * row.k, row.k, at_work.differences + lead * row.symbols,
                          row.symbols, changes, sizeof changes) != QMTD_OK)
                fail("a pass is refused");
}

static void make_decodes(void)
{
    static uint8_t syndrome[QMTD_MAX_K], difference[QMTD_MAX_DATA], margins[QMTD_MARGINS_LEN(QMTD_MAX_DATA, 1)];
    for (uint32_t lead = 0; lead < row.leads; lead++)
        if (qmtd_decode(CODE, row.pages[lead], row.symbols + row.k, LIST, decoded[lead].result, row.symbols, syndrome,
                        row.k, difference, row.symbols, margins, QMTD_MARGINS_LEN(row.k, row.b), decoded[lead].counts,
                        QMTD_COUNTS_LEN) != QMTD_OK)
            fail("a decode is refused");
}

static void make_way(enum way way)
{
    switch (way) {
    case ONE_BUDGET: make_visits(0xFFFFFFFF); break;
    case SMALL_BUDGETS: make_visits(SMALL_BUDGET); break;
    case PASSES: make_passes(); break;
    default: make_decodes();
    }
}

/* bench/count collects the instructions inside this function; the counter keeps the call from becoming a jump. */
__attribute__((noinline)) void counted_call(enum way way);
static volatile unsigned counted;

void counted_call(enum way way)
{
    make_way(way);
    counted++;
}

/* ---- A row ---- */

/* The thresholds of the passes that decode runs for a page, by passes on it as opened. */
static void find_passes(uint32_t lead)
{
    uint8_t changes[QMTD_CHANGES_LEN];
    struct decoded *of = &decoded[lead];
    of->passes = 0;
    for (size_t at = 0; at < sizeof row.thresholds;) {
        const uint8_t threshold = row.thresholds[at];
        if (qmtd_pass(CODE, threshold, at_work.results + lead * row.symbols, row.symbols,
                      at_work.syndromes + lead * row.k, row.k, at_work.differences + lead * row.symbols, row.symbols,
                      changes, sizeof changes) != QMTD_OK)
            fail("a pass is refused");
        of->run[of->passes++] = threshold;
        at++;
        while (qmtd_number(changes) == 0 && at < sizeof row.thresholds && row.thresholds[at] >= threshold)
            at++;
    }
}

/* Names a row of a code, a damage and so many leads with a page. */
static void name_row(const struct code *code, uint32_t damage, uint32_t leads)
{
    char kind[16] = "clean", branches[16] = "";
    if (damage > 0)
        snprintf(kind, sizeof kind, "%u%%", (unsigned)damage);
    if (code->b > 1)
        snprintf(branches, sizeof branches, " b=%u", (unsigned)code->b);
    snprintf(row.name, sizeof row.name, "k=%u%s J=%u %s, %u lead%s", (unsigned)code->k, branches,
             (unsigned)code->positions, kind, (unsigned)leads, leads > 1 ? "s" : "");
}

/* Makes the row's table and pages, loads them, and finds the passes of each. Every part of the rack is then as an
 * opened page. */
static void make_row(const struct code *code, uint32_t damage, uint32_t leads)
{
    const uint32_t j = code->positions;
    const uint8_t thresholds[] = {(uint8_t)(j / 4), (uint8_t)(j / 8), 1, 0};
    row.k = code->k;
    row.b = code->b;
    row.symbols = code->b * code->k;
    row.leads = leads;
    row.table_len = QMTD_TABLE_LEN(code->b, j);
    make_table(code, row.table);
    memcpy(row.thresholds, thresholds, sizeof thresholds);

    generator = 0x9E3779B97F4A7C15u;
    if (qmtd_rack_new(loaded.leads, QMTD_RACK_LEADS, loaded.last, sizeof loaded.last) != QMTD_OK)
        fail("a rack is refused");
    for (uint32_t lead = 0; lead < leads; lead++) {
        make_page(row.pages[lead], damage);
        if (qmtd_rack_load(RACK(loaded), CODE, LIST, lead, row.pages[lead], row.symbols + row.k) != QMTD_OK)
            fail("a load is refused");
    }
    at_work = loaded;
    for (uint32_t lead = 0; lead < leads; lead++)
        find_passes(lead);
}

/* All visits of the row's pages. */
static uint32_t visits(void)
{
    uint32_t all = 0;
    for (uint32_t lead = 0; lead < row.leads; lead++)
        all += decoded[lead].passes * row.symbols;
    return all;
}

/* Do all ways give what decode gives for each page? */
static void compare(void)
{
    uint8_t result[QMTD_MAX_DATA], counts[QMTD_COUNTS_LEN];
    make_decodes();
    for (enum way way = ONE_BUDGET; way < DECODE; way++) {
        at_work = loaded;
        make_way(way);
        for (uint32_t lead = 0; lead < row.leads; lead++) {
            if (way == PASSES)
                memcpy(result, at_work.results + lead * row.symbols, row.symbols);
            else if (qmtd_rack_take(RACK(at_work), CODE, LIST, lead, result, row.symbols, counts, sizeof counts) !=
                         QMTD_OK ||
                     memcmp(counts, decoded[lead].counts, sizeof counts) != 0)
                fail("a page taken away has other counts than decode gives");
            if (memcmp(result, decoded[lead].result, row.symbols) != 0 ||
                decoded[lead].passes != qmtd_number(decoded[lead].counts))
                fail("other results or passes than decode gives");
        }
    }
}

/* ---- Measuring ---- */

/* Nanoseconds of one round of a way. */
static double time_way(enum way way)
{
    at_work = loaded;
    double start = now();
    make_way(way);
    return now() - start;
}

/* The fastest round of each way so far; 0 before the first. */
static void measure(double batch, double *best)
{
    for (enum way way = ONE_BUDGET; way < WAYS; way++)
        if (best[way] == 0)
            best[way] = time_way(way);
    for (double spent = 0; spent < batch;)
        for (enum way way = ONE_BUDGET; way < WAYS; way++) {
            double t = time_way(way);
            if (t < best[way])
                best[way] = t;
            spent += t;
        }
}

static void print_head(int ns)
{
    printf("thresholds J/4, J/8, 1, 0; q = 256\n%-36s %9s %9s", "", way_names[0], "visits");
    for (enum way way = SMALL_BUDGETS; way < WAYS; way++)
        printf(" %9s", way_names[way]);
    printf("   visits\n%-36s %9s %9s  %s\n", "", "ns/visit", "mill./s",
           ns ? "ns/visit" : "speed of one budget / speed of the other; above 1 one budget is faster");
}

static void print_row(const double *best, int ns)
{
    const double all = visits();
    printf("%-36s %9.2f %9.2f", row.name, best[0] / all, 1e3 * all / best[0]);
    for (enum way way = SMALL_BUDGETS; way < WAYS; way++)
        printf(" %9.2f", ns ? best[way] / all : best[way] / best[0]);
    printf("   %6.0f\n", all);
    fflush(stdout);
}

static void count_row(void)
{
    for (enum way way = ONE_BUDGET; way < WAYS; way++) {
        at_work = loaded;
        counted_call(way);
        printf("%u\t%s\t%s\n", (unsigned)visits(), way_names[way], row.name);
    }
}

int main(int argc, char **argv)
{
    const char *filter = "";
    int quick = 0, ns = 0, count = 0;
    for (int i = 1; i < argc; i++)
        if (strcmp(argv[i], "--quick") == 0) {
            quick = 1;
        } else if (strcmp(argv[i], "--ns") == 0) {
            ns = 1;
        } else if (strcmp(argv[i], "--count") == 0) {
            count = 1;
        } else if (strcmp(argv[i], "--rows") == 0 && i + 1 < argc) {
            filter = argv[++i];
        } else {
            fprintf(stderr, "rack [--quick] [--ns] [--count] [--rows FILTER]\n");
            return 2;
        }

    /* The whole table is swept several times: a burst of other load then spoils one sweep of a row, not all. */
    int sweeps = quick || count ? 1 : 4, rows = 0;
    double batch = quick ? 2e7 : 2e8;
    static double best[MAX_ROWS][WAYS];
    if (!count)
        print_head(ns);
    for (int sweep = 0; sweep < sweeps; sweep++) {
        rows = 0;
        for (int c = 0; c < CODES; c++)
            for (int d = 0; d < DAMAGES; d++)
                for (int l = 0; l < LOADS; l++) {
                    name_row(&codes[c], damages[d], loads[l]);
                    if (strstr(row.name, filter) == NULL || (count && damages[d] != 0 && damages[d] != 5))
                        continue;
                    make_row(&codes[c], damages[d], loads[l]);
                    if (count) {
                        count_row();
                    } else {
                        compare();
                        measure(batch, best[rows]);
                        if (sweep == sweeps - 1)
                            print_row(best[rows], ns);
                    }
                    rows++;
                }
    }
    if (rows == 0) {
        fprintf(stderr, "no row has \"%s\" in its name\n", filter);
        return 2;
    }
    return 0;
}
