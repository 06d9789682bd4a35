/* wide.c - measures the library on symbols of two bytes and of four beside its decode on bytes and beside the same calls
 * in C, in one run:  wide [--quick] [--ns] [--rows FILTER], which bench/run --wide makes.
 *
 * Every page is first put through all implementations, and all they return and write is compared; the decode on bytes
 * has a page of its own, of the same code with the same places replaced. Then, sweep by sweep, row by row and round by
 * round, each implementation runs in turn; its fastest round counts.
 *
 *   --quick         fewer and shorter rounds
 *   --ns            nanoseconds a data symbol for all, instead of ratios
 *   --rows FILTER   only the rows with FILTER in their name
 *   --count         makes each call once, for bench/count --wide */
#define _POSIX_C_SOURCE 199309L
#include "codes.h"
#include "measure.h"
#include "wide_calls.h"

/* ---- The implementations ---- */

#define DECLARE(prefix)                  \
    wide_encode_call prefix##encode;     \
    wide_syndrome_call prefix##syndrome; \
    wide_decode_call prefix##decode;

#define CALLS(title, prefix) {title, prefix##encode, prefix##syndrome, prefix##decode}

DECLARE(plain_u16_gcc_)
DECLARE(plain_u32_gcc_)
DECLARE(fast_u16_gcc_)
DECLARE(fast_u32_gcc_)
#ifdef WITH_CLANG
DECLARE(plain_u16_clang_)
DECLARE(plain_u32_clang_)
DECLARE(fast_u16_clang_)
DECLARE(fast_u32_clang_)
#endif

/* One without calls is the library on bytes. */
struct implementation {
    const char *name;
    wide_encode_call *encode;
    wide_syndrome_call *syndrome;
    wide_decode_call *decode;
};

#ifdef WITH_CLANG
#define BY_CLANG(title, prefix) CALLS(title, prefix),
#else
#define BY_CLANG(title, prefix)
#endif

/* The library comes first: the others are compared with it. */
#define COMPARED(width)                                                                             \
    CALLS("library", qmtd_##width##_),                                                              \
    {"bytes", NULL, NULL, NULL},                                                                    \
    CALLS("plain gcc", plain_##width##_gcc_), BY_CLANG("plain clang", plain_##width##_clang_)       \
    CALLS("fast gcc", fast_##width##_gcc_), BY_CLANG("fast clang", fast_##width##_clang_)
static const struct implementation u16[] = {COMPARED(u16)}, u32[] = {COMPARED(u32)};
enum { IMPLEMENTATIONS = sizeof u16 / sizeof u16[0] };

static const struct width {
    const char *name;
    uint32_t w;
    const struct implementation *implementations;
} widths[] = {{"u16", QMTD_U16_WIDTH, u16}, {"u32", QMTD_U32_WIDTH, u32}};
enum { WIDTHS = sizeof widths / sizeof widths[0] };

/* ---- Codes, pages and rows ---- */

/* The first is the example of document 01; spread is coprime to k. */
static const struct code codes[] = {{13, 1, 4, 1}, {1021, 1, 12, 388}, {4096, 1, 10, 1531}, {4096, 1, 32, 1531},
                                    {1024, 4, 8, 387}};
enum { CODES = sizeof codes / sizeof codes[0] };

static const uint32_t damages[] = {0, 1, 5, 10}; /* symbols replaced, in percent */
enum { DAMAGES = sizeof damages / sizeof damages[0] };

enum call { ENCODE, SYNDROME, DECODE };
static const char *const call_names[] = {"encode", "syndrome", "decode"};
enum { MAX_ROWS = WIDTHS * CODES * (2 + DAMAGES) };

/* Long enough for symbols of four bytes. */
enum { MOST_DATA = QMTD_WIDE_DATA_LEN(4, QMTD_MAX_DATA, 1), MOST_PAGE = QMTD_WIDE_PAGE_LEN(4, QMTD_MAX_K, 1) };

struct row {
    char name[80];
    const struct width *on;
    enum call call;
    uint32_t k, b, positions, symbols; /* data symbols of all branches */
    uint8_t table[QMTD_MAX_TABLE_LEN], thresholds[4];
    uint8_t data[MOST_DATA], page[MOST_PAGE];
    uint8_t bytes[QMTD_MAX_DATA], page_of_bytes[QMTD_MAX_PAGE_LEN]; /* the like for decode on bytes */
};

/* What a call returns and writes. */
struct answer {
    uint32_t number;
    uint8_t page[MOST_PAGE], result[MOST_DATA], syndrome[MOST_DATA], difference[MOST_DATA];
    uint8_t margins[QMTD_MARGINS_LEN(QMTD_MAX_DATA, 1)], counts[QMTD_COUNTS_LEN];
};

/* Makes the row's pages: data drawn, encoded by the library, then the damage, rounded up to whole symbols. */
static void make_pages(struct row *row, uint32_t damage)
{
    uint32_t w = row->on->w, k = row->k, b = row->b, table_len = 2 * b * row->positions, n = row->symbols + k;
    uint8_t replaced[QMTD_MAX_PAGE_LEN] = {0};
    generator = 0x9E3779B97F4A7C15u;
    for (uint32_t i = 0; i < w * row->symbols; i++)
        row->data[i] = (uint8_t)draw(256);
    for (uint32_t i = 0; i < row->symbols; i++)
        row->bytes[i] = (uint8_t)draw(256);
    if (row->on->implementations[0].encode(k, b, row->table, table_len, row->data, w * row->symbols, row->page, w * n) !=
            QMTD_OK ||
        qmtd_encode(256, k, b, row->table, table_len, row->bytes, row->symbols, row->page_of_bytes, n) != QMTD_OK) {
        fprintf(stderr, "%s: the library refuses the table\n", row->name);
        exit(1);
    }
    for (uint32_t left = (n * damage + 99) / 100; left > 0;) {
        uint32_t i = draw(n);
        if (replaced[i])
            continue;
        replaced[i] = 1;
        for (uint32_t byte = 0; byte < w; byte++)
            row->page[w * i + byte] = (uint8_t)(row->page[w * i + byte] + 1 + draw(255));
        row->page_of_bytes[i] = (uint8_t)(row->page_of_bytes[i] + 1 + draw(255));
        left--;
    }
}

static void make_row(struct row *row, const struct width *on, const struct code *code, enum call call, uint32_t damage)
{
    char kind[16] = "", branches[16] = "";
    uint32_t j = code->positions;
    *row = (struct row){
        .on = on, .call = call, .k = code->k, .b = code->b, .positions = j, .symbols = code->b * code->k};
    if (call == DECODE && damage == 0)
        strcpy(kind, " clean");
    else if (call == DECODE)
        snprintf(kind, sizeof kind, " %u%%", (unsigned)damage);
    if (code->b > 1)
        snprintf(branches, sizeof branches, " b=%u", (unsigned)code->b);
    snprintf(row->name, sizeof row->name, "k=%u%s J=%u %s %s%s", (unsigned)code->k, branches, (unsigned)j, on->name,
             call_names[call], kind);
    make_table(code, row->table);
    const uint8_t thresholds[] = {(uint8_t)(j / 4), (uint8_t)(j / 8), 1, 0};
    memcpy(row->thresholds, thresholds, sizeof thresholds);
    make_pages(row, damage);
}

/* ---- One call ---- */

static uint32_t make_call_on_bytes(const struct row *row, struct answer *answer)
{
    uint32_t k = row->k, b = row->b, n = row->symbols;
    size_t table_len = 2 * b * row->positions;
    if (row->call == ENCODE)
        return qmtd_encode(256, k, b, row->table, table_len, row->bytes, n, answer->page, n + k);
    if (row->call == SYNDROME)
        return qmtd_syndrome(256, k, b, row->table, table_len, row->page_of_bytes, n + k, answer->syndrome, k);
    return qmtd_decode(256, k, b, row->table, table_len, row->page_of_bytes, n + k, row->thresholds,
                       sizeof row->thresholds, answer->result, n, answer->syndrome, k, answer->difference, n,
                       answer->margins, 4 * n, answer->counts, sizeof answer->counts);
}

static void make_call(const struct implementation *by, const struct row *row, struct answer *answer)
{
    uint32_t w = row->on->w, k = row->k, b = row->b, n = row->symbols;
    size_t table_len = 2 * b * row->positions;
    if (by->decode == NULL)
        answer->number = make_call_on_bytes(row, answer);
    else if (row->call == ENCODE)
        answer->number = by->encode(k, b, row->table, table_len, row->data, w * n, answer->page, w * (n + k));
    else if (row->call == SYNDROME)
        answer->number = by->syndrome(k, b, row->table, table_len, row->page, w * (n + k), answer->syndrome, w * k);
    else
        answer->number = by->decode(k, b, row->table, table_len, row->page, w * (n + k), row->thresholds,
                                    sizeof row->thresholds, answer->result, w * n, answer->syndrome, w * k,
                                    answer->difference, w * n, answer->margins, 4 * n, answer->counts,
                                    sizeof answer->counts);
}

/* bench/count collects the instructions inside this function; the counter keeps the call from becoming a jump. */
__attribute__((noinline)) void counted_call(const struct implementation *, const struct row *, struct answer *);
static volatile unsigned counted;

void counted_call(const struct implementation *by, const struct row *row, struct answer *answer)
{
    make_call(by, row, answer);
    counted++;
}

/* Puts the row through all implementations; leaves the first one's answer. Do all agree that are given the same page? */
static int agree(const struct row *row, struct answer *first)
{
    static struct answer other;
    for (int i = 0; i < IMPLEMENTATIONS; i++) {
        const struct implementation *by = &row->on->implementations[i];
        struct answer *answer = i == 0 ? first : &other;
        memset(answer, 0xA5, sizeof *answer);
        make_call(by, row, answer);
        if (answer->number != QMTD_OK || (by->decode != NULL && memcmp(answer, first, sizeof *answer) != 0)) {
            fprintf(stderr, "%s: %s returned %u%s\n", row->name, by->name, (unsigned)answer->number,
                    answer->number == first->number ? " and wrote other bytes than the first" : "");
            return 0;
        }
    }
    return 1;
}

/* ---- Measuring ---- */

static double time_calls(const struct implementation *by, const struct row *row, unsigned repetitions)
{
    static struct answer answer;
    double start = now();
    for (unsigned r = 0; r < repetitions; r++)
        make_call(by, row, &answer);
    return (now() - start) / repetitions;
}

/* The fastest round of each implementation so far, in nanoseconds a call; 0 before the first. */
static void measure(const struct row *row, int rounds, double batch, double *best)
{
    unsigned repetitions[IMPLEMENTATIONS];
    for (int i = 0; i < IMPLEMENTATIONS; i++) {
        const struct implementation *by = &row->on->implementations[i];
        time_calls(by, row, 1);
        double once = time_calls(by, row, 1);
        if (best[i] == 0 || once < best[i])
            best[i] = once;
        double wanted = batch / (best[i] > 20 ? best[i] : 20);
        repetitions[i] = wanted < 1 ? 1 : (unsigned)wanted;
    }
    for (int round = 0; round < rounds; round++)
        for (int i = 0; i < IMPLEMENTATIONS; i++) {
            double t = time_calls(&row->on->implementations[i], row, repetitions[i]);
            if (t < best[i])
                best[i] = t;
        }
}

static void print_head(int ns)
{
    printf("decode: thresholds J/4, J/8, 1, 0\n%-36s %9s ", "", u16[0].name);
    for (int i = 1; i < IMPLEMENTATIONS; i++)
        printf(" %11s", u16[i].name);
    printf("   passes changes\n%-36s %9s  %s\n", "", "ns/symbol",
           ns ? "ns/symbol" : "library speed / speed of the other; above 1 the library is faster on wide symbols");
}

static void print_row(const struct row *row, const double *best, const struct answer *answer, int ns)
{
    printf("%-36s %9.3f ", row->name, best[0] / row->symbols);
    for (int i = 1; i < IMPLEMENTATIONS; i++)
        if (ns)
            printf(" %11.3f", best[i] / row->symbols);
        else
            printf(" %11.2f", best[i] / best[0]);
    if (row->call == DECODE)
        printf("   %6u %7u", (unsigned)qmtd_number(answer->counts), (unsigned)qmtd_number(answer->counts + 4));
    printf("\n");
    fflush(stdout);
}

static void count_row(const struct row *row)
{
    static struct answer answer;
    for (int i = 0; i < IMPLEMENTATIONS; i++) {
        const struct implementation *by = &row->on->implementations[i];
        if (strncmp(by->name, "plain", 5) != 0) {
            counted_call(by, row, &answer);
            printf("%u\t%s\t%s\n", (unsigned)row->symbols, by->name, row->name);
        }
    }
}

int main(int argc, char **argv)
{
    const char *filter = "";
    int quick = 0, ns = 0, count = 0;
    for (int i = 1; i < argc; i++)
        if (strcmp(argv[i], "--quick") == 0) {
            quick = 1;
        } else if (strcmp(argv[i], "--ns") == 0) {
            ns = 1;
        } else if (strcmp(argv[i], "--count") == 0) {
            count = 1;
        } else if (strcmp(argv[i], "--rows") == 0 && i + 1 < argc) {
            filter = argv[++i];
        } else {
            fprintf(stderr, "wide [--quick] [--ns] [--count] [--rows FILTER]\n");
            return 2;
        }

    /* The whole table is swept several times: a burst of other load then spoils one sweep of a row, not all. */
    int sweeps = quick || count ? 1 : 4, rounds = quick ? 5 : 30, rows = 0;
    double batch = quick ? 5e5 : 2e6;
    static double best[MAX_ROWS][IMPLEMENTATIONS];
    if (!count)
        print_head(ns);
    for (int sweep = 0; sweep < sweeps; sweep++) {
        rows = 0;
        for (int o = 0; o < WIDTHS; o++)
            for (int c = 0; c < CODES; c++)
                for (enum call call = ENCODE; call <= DECODE; call++)
                    for (int d = 0; d < (call == DECODE ? DAMAGES : 1); d++) {
                        static struct row row;
                        static struct answer answer;
                        make_row(&row, &widths[o], &codes[c], call, damages[d]);
                        if (strstr(row.name, filter) == NULL)
                            continue;
                        if (count) {
                            count_row(&row);
                        } else {
                            if (!agree(&row, &answer))
                                return 1;
                            measure(&row, rounds, batch, best[rows]);
                            if (sweep == sweeps - 1)
                                print_row(&row, best[rows], &answer, ns);
                        }
                        rows++;
                    }
    }
    if (rows == 0) {
        fprintf(stderr, "no row has \"%s\" in its name\n", filter);
        return 2;
    }
    return 0;
}
