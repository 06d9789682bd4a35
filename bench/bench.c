/* bench.c - measures the library beside the same calls in C, in one run:
 *   bench [--quick] [--ns] [--before] [--counters] [--outer] [--bits] [--passes] [--rows FILTER]
 *
 * Every page is first put through all implementations, and all they return and write is compared. Then, sweep by sweep,
 * row by row and round by round, each implementation runs in turn; its fastest round counts.
 *
 *   --quick         fewer and shorter rounds
 *   --ns            nanoseconds a data byte for all, instead of ratios
 *   --rows FILTER   only the rows with FILTER in their name
 *   --count         makes each call of the rows to count once, for bench/count
 *   --before        the library beside the archive that bench/build was told of by QMTD_BEFORE
 *   --counters      the library alone: decode with counters beside decode
 *   --outer         the library alone: decode with an outer check beside decode, in blocks of 8 and of 16
 *   --bits          decode on bits beside the general decode at q = 3, on pages with the same places replaced, and
 *                   beside plain C on bits
 *   --passes        the library alone: decode with one threshold beside open and one pass with it */
#define _POSIX_C_SOURCE 199309L
#include "calls.h"
#include "codes.h"
#include "measure.h"
#include "qmtd_bits.h"

/* ---- The implementations ---- */

#define DECLARE(prefix)                     \
    check_table_call prefix##check_table;   \
    encode_call prefix##encode;             \
    syndrome_call prefix##syndrome;         \
    decode_call prefix##decode;

#define CALLS(title, prefix) {title, prefix##check_table, prefix##encode, prefix##syndrome, prefix##decode, 0}

DECLARE(plain_bits_)
DECLARE(plain_gcc_)
DECLARE(fast_gcc_)
#ifdef WITH_CLANG
DECLARE(plain_clang_)
DECLARE(fast_clang_)
#endif
#ifdef WITH_BEFORE
DECLARE(before_qmtd_)
#endif

struct implementation {
    const char *name;
    check_table_call *check_table;
    encode_call *encode;
    syndrome_call *syndrome;
    decode_call *decode;
    int at_3; /* is it given the row's page at q = 3? */
};

static decode_call decode_counters, decode_outer_8, decode_outer_16;

/* The library comes first: the others are compared with it. */
static const struct implementation library_and_c[] = {
    CALLS("library", qmtd_),
    CALLS("plain gcc", plain_gcc_),
#ifdef WITH_CLANG
    CALLS("plain clang", plain_clang_),
#endif
    CALLS("fast gcc", fast_gcc_),
#ifdef WITH_CLANG
    CALLS("fast clang", fast_clang_),
#endif
};
enum { MAX_IMPLEMENTATIONS = sizeof library_and_c / sizeof library_and_c[0] };

static const struct implementation both_votes[] = {
    {"counters", qmtd_check_table, qmtd_encode, qmtd_syndrome, decode_counters, 0},
    CALLS("decode", qmtd_),
};

static const struct implementation with_outer[] = {
    CALLS("decode", qmtd_),
    {"L = 8", qmtd_check_table, qmtd_encode, qmtd_syndrome, decode_outer_8, 0},
    {"L = 16", qmtd_check_table, qmtd_encode, qmtd_syndrome, decode_outer_16, 0},
};

static const struct implementation on_bits[] = {
    CALLS("bits", qmtd_bits_),
    {"q = 3", qmtd_check_table, qmtd_encode, qmtd_syndrome, qmtd_decode, 1},
    CALLS("plain gcc", plain_bits_),
};

static const struct implementation with_before[] = {
    CALLS("library", qmtd_),
#ifdef WITH_BEFORE
    CALLS("before", before_qmtd_),
#endif
};

/* Decode with counters as a decode: they are lent as the last call left them. */
static uint32_t decode_counters(uint32_t q, uint32_t k, uint32_t b, const uint8_t *table, uint64_t table_len,
                                const uint8_t *page, uint64_t page_len, const uint8_t *thresholds,
                                uint64_t thresholds_len, uint8_t *result, uint64_t result_len, uint8_t *syndrome,
                                uint64_t syndrome_len, uint8_t *difference, uint64_t difference_len, uint8_t *margins,
                                uint64_t margins_len, uint8_t *counts, uint64_t counts_len)
{
    static uint8_t counters[QMTD_COUNTERS_LEN];
    return qmtd_decode_counters(q, k, b, table, table_len, page, page_len, thresholds, thresholds_len, result,
                                result_len, syndrome, syndrome_len, difference, difference_len, margins, margins_len,
                                counters, sizeof counters, counts, counts_len);
}

/* Decode with an outer check as a decode, for a block length. */
#define DECODE_OUTER(block)                                                                                            \
    static uint32_t decode_outer_##block(                                                                              \
        uint32_t q, uint32_t k, uint32_t b, const uint8_t *table, uint64_t table_len, const uint8_t *page,             \
        uint64_t page_len, const uint8_t *thresholds, uint64_t thresholds_len, uint8_t *result, uint64_t result_len,   \
        uint8_t *syndrome, uint64_t syndrome_len, uint8_t *difference, uint64_t difference_len, uint8_t *margins,      \
        uint64_t margins_len, uint8_t *counts, uint64_t counts_len)                                                    \
    {                                                                                                                  \
        return qmtd_decode_outer(q, k, b, table, table_len, block, page, page_len, thresholds, thresholds_len, result, \
                                 result_len, syndrome, syndrome_len, difference, difference_len, margins,              \
                                 margins_len, counts, counts_len);                                                     \
    }

DECODE_OUTER(8)
DECODE_OUTER(16)

/* ---- Codes, pages and rows ---- */

/* The first is the example of document 01; spread is coprime to k. */
static const struct code codes[] = {{13, 1, 4, 1},      {1021, 1, 12, 388}, {4096, 1, 10, 1531},
                                    {4096, 1, 32, 1531}, {1024, 2, 8, 387},  {1024, 4, 8, 387}};
enum { MAX_CODES = sizeof codes / sizeof codes[0] };

/* Few checks and many, with the same number of data symbols. */
static const struct code vote_codes[] = {{4096, 1, 4, 1531}, {4096, 1, 12, 1531}, {4096, 1, 32, 1531}};

/* Numbers of data symbols that 16 divides; the data is sent in blocks of 8, so that blocks of 16 keep the rule too. */
static const struct code outer_codes[] = {{1024, 1, 12, 387}, {4096, 1, 10, 1531}, {4096, 1, 32, 1531},
                                          {1024, 4, 8, 387}};
enum { SENT_BLOCK = 8 };

static const uint32_t alphabets[] = {256, 251}, bits_alphabet[] = {2};
enum { ALPHABETS = sizeof alphabets / sizeof alphabets[0] };

static const uint32_t damages[] = {0, 1, 5, 10}; /* symbols replaced, in percent */
enum { DAMAGES = sizeof damages / sizeof damages[0] };

/* A table check, an encode and a syndrome, and a decode for each damage. */
enum { MAX_ROWS = MAX_CODES * ALPHABETS * (3 + DAMAGES) };

enum call { CHECK_TABLE, ENCODE, SYNDROME, DECODE };
static const char *const call_names[] = {"check_table", "encode", "syndrome", "decode"};

/* What is compared: the first implementation with the others, by its calls from `first` on. */
static const struct comparison {
    const struct implementation *implementations;
    int count;
    const struct code *codes;
    int code_count;
    const uint32_t *alphabets;
    int alphabet_count;
    enum call first;
    const char *ratio;
} library_with_c = {library_and_c, MAX_IMPLEMENTATIONS, codes, MAX_CODES, alphabets, ALPHABETS, CHECK_TABLE,
                    "library speed / C speed; above 1 the library is faster"},
  votes = {both_votes, sizeof both_votes / sizeof both_votes[0], vote_codes, sizeof vote_codes / sizeof vote_codes[0],
           alphabets, ALPHABETS, DECODE, "speed with counters / speed without; above 1 it is faster with them"},
  outer = {with_outer, sizeof with_outer / sizeof with_outer[0], outer_codes,
           sizeof outer_codes / sizeof outer_codes[0], alphabets, ALPHABETS, DECODE,
           "time with the outer check / time of decode; above 1 it takes longer"},
  bits = {on_bits, sizeof on_bits / sizeof on_bits[0], codes, MAX_CODES, bits_alphabet, 1, DECODE,
          "speed on bits / speed of the other; above 1 bits are faster"},
  before = {with_before, sizeof with_before / sizeof with_before[0], codes, MAX_CODES, alphabets, ALPHABETS,
            CHECK_TABLE, "library speed / speed of the archive before; above 1 the library is faster"},
  *compared = &library_with_c;

struct row {
    char name[80];
    enum call call;
    uint32_t q, k, b, positions, symbols; /* data symbols of all branches */
    uint8_t table[QMTD_MAX_TABLE_LEN], thresholds[4], data[QMTD_MAX_DATA], page[QMTD_MAX_PAGE_LEN];
    uint8_t page_at_3[QMTD_MAX_PAGE_LEN]; /* of bits: other data at q = 3, the same places replaced */
};

/* What a call returns and writes. */
struct answer {
    uint32_t number;
    uint8_t page[QMTD_MAX_PAGE_LEN], result[QMTD_MAX_DATA], syndrome[QMTD_MAX_K], difference[QMTD_MAX_DATA];
    uint8_t margins[QMTD_MARGINS_LEN(QMTD_MAX_DATA, 1)], counts[QMTD_COUNTS_LEN];
};

/* Encodes the row's data, on bits or with an outer check where that is compared. */
static uint32_t encode_row(struct row *row)
{
    uint32_t q = row->q, k = row->k, b = row->b, table_len = 2 * b * row->positions, n = row->symbols;
    if (compared == &outer)
        return qmtd_encode_outer(q, k, b, row->table, table_len, SENT_BLOCK, row->data, n, row->page, n + k);
    if (compared == &bits)
        return qmtd_bits_encode(q, k, b, row->table, table_len, row->data, n, row->page, n + k);
    return qmtd_encode(q, k, b, row->table, table_len, row->data, n, row->page, n + k);
}

/* Makes the page at q = 3 that is damaged at the same places. */
static void make_page_at_3(struct row *row, const uint8_t *replaced)
{
    uint32_t k = row->k, b = row->b, n = row->symbols;
    uint8_t data[QMTD_MAX_DATA];
    for (uint32_t i = 0; i < n; i++)
        data[i] = (uint8_t)draw(3);
    if (qmtd_encode(3, k, b, row->table, 2 * b * row->positions, data, n, row->page_at_3, n + k) != QMTD_OK) {
        fprintf(stderr, "%s: the library refuses the table at q = 3\n", row->name);
        exit(1);
    }
    for (uint32_t i = 0; i < n + k; i++)
        if (replaced[i])
            row->page_at_3[i] = (uint8_t)((row->page_at_3[i] + 1 + draw(2)) % 3);
}

/* Makes the row's page: data drawn, encoded by the library, then the damage, rounded up to whole symbols. */
static void make_page(struct row *row, uint32_t damage)
{
    uint32_t q = row->q, k = row->k, b = row->b, table_len = 2 * b * row->positions, n = row->symbols + k;
    uint8_t replaced[QMTD_MAX_PAGE_LEN] = {0};
    generator = 0x9E3779B97F4A7C15u;
    for (uint32_t i = 0; i < row->symbols; i++)
        row->data[i] = (uint8_t)draw(q);
    if (compared->implementations[0].check_table(q, k, b, row->table, table_len) != QMTD_OK ||
        encode_row(row) != QMTD_OK) {
        fprintf(stderr, "%s: the library refuses the table\n", row->name);
        exit(1);
    }
    for (uint32_t left = (n * damage + 99) / 100; left > 0;) {
        uint32_t i = draw(n);
        if (replaced[i])
            continue;
        replaced[i] = 1;
        row->page[i] = (uint8_t)((row->page[i] + 1 + draw(q - 1)) % q);
        left--;
    }
    if (compared == &bits)
        make_page_at_3(row, replaced);
}

static void make_row(struct row *row, const struct code *code, uint32_t q, enum call call, uint32_t damage)
{
    char kind[16] = "", branches[16] = "";
    uint32_t j = code->positions;
    *row = (struct row){
        .call = call, .q = q, .k = code->k, .b = code->b, .positions = j, .symbols = code->b * code->k};
    if (call == DECODE && damage == 0)
        strcpy(kind, " clean");
    else if (call == DECODE)
        snprintf(kind, sizeof kind, " %u%%", (unsigned)damage);
    if (code->b > 1)
        snprintf(branches, sizeof branches, " b=%u", (unsigned)code->b);
    snprintf(row->name, sizeof row->name, "k=%u%s J=%u q=%u %s%s", (unsigned)code->k, branches, (unsigned)j,
             (unsigned)q, call_names[call], kind);
    make_table(code, row->table);
    row->thresholds[0] = (uint8_t)(j / 4);
    row->thresholds[1] = (uint8_t)(j / 8);
    row->thresholds[2] = 1;
    row->thresholds[3] = 0;
    make_page(row, damage);
}

/* ---- One call ---- */

static void make_call(const struct implementation *by, const struct row *row, struct answer *answer)
{
    uint32_t q = by->at_3 ? 3 : row->q, k = row->k, b = row->b, n = row->symbols;
    const uint8_t *table = row->table;
    size_t table_len = 2 * b * row->positions;
    switch (row->call) {
    case CHECK_TABLE:
        answer->number = by->check_table(q, k, b, table, table_len);
        break;
    case ENCODE:
        answer->number = by->encode(q, k, b, table, table_len, row->data, n, answer->page, n + k);
        break;
    case SYNDROME:
        answer->number = by->syndrome(q, k, b, table, table_len, row->page, n + k, answer->syndrome, k);
        break;
    case DECODE:
        answer->number = by->decode(q, k, b, table, table_len, by->at_3 ? row->page_at_3 : row->page, n + k,
                                    row->thresholds, sizeof row->thresholds, answer->result, n, answer->syndrome, k,
                                    answer->difference, n, answer->margins, 4 * n, answer->counts,
                                    sizeof answer->counts);
        break;
    }
}

/* bench/count collects the instructions inside this function; the counter keeps the call from becoming a jump. */
__attribute__((noinline)) void counted_call(const struct implementation *, const struct row *, struct answer *);
static volatile unsigned counted;

void counted_call(const struct implementation *by, const struct row *row, struct answer *answer)
{
    make_call(by, row, answer);
    counted++;
}

/* Is an answer what the first one's makes due? With an outer check passes and start are decode's, and where no step was
 * made, so that the changes are as many, all else is too. */
static int is_due(const struct answer *answer, const struct answer *first)
{
    if (compared == &outer && memcmp(answer->counts + 4, first->counts + 4, 4) != 0)
        return memcmp(answer->counts, first->counts, 4) == 0 && memcmp(answer->counts + 8, first->counts + 8, 4) == 0;
    return memcmp(answer, first, sizeof *answer) == 0;
}

/* Puts the row through all implementations; leaves their answers. Do all agree that are given the same page? */
static int agree(const struct row *row, struct answer *answers)
{
    for (int i = 0; i < compared->count; i++) {
        const struct implementation *by = &compared->implementations[i];
        struct answer *answer = &answers[i];
        memset(answer, 0xA5, sizeof *answer);
        make_call(by, row, answer);
        if (answer->number != QMTD_OK || (!by->at_3 && !is_due(answer, answers))) {
            fprintf(stderr, "%s: %s returned %u%s\n", row->name, by->name, (unsigned)answer->number,
                    answer->number == answers->number ? " and wrote other bytes than the first" : "");
            return 0;
        }
    }
    return 1;
}

static uint32_t number_at(const uint8_t *bytes)
{
    return bytes[0] | (uint32_t)bytes[1] << 8 | (uint32_t)bytes[2] << 16 | (uint32_t)bytes[3] << 24;
}

/* ---- Measuring ---- */

static double time_calls(const struct implementation *by, const struct row *row, unsigned repetitions)
{
    static struct answer answer;
    double start = now();
    for (unsigned r = 0; r < repetitions; r++)
        make_call(by, row, &answer);
    return (now() - start) / repetitions;
}

/* The fastest round of each implementation so far, in nanoseconds a call; 0 before the first. */
static void measure(const struct row *row, int rounds, double batch, double *best)
{
    const struct implementation *implementations = compared->implementations;
    unsigned repetitions[MAX_IMPLEMENTATIONS];
    for (int i = 0; i < compared->count; i++) {
        time_calls(&implementations[i], row, 1);
        double once = time_calls(&implementations[i], row, 1);
        if (best[i] == 0 || once < best[i])
            best[i] = once;
        double wanted = batch / (best[i] > 20 ? best[i] : 20);
        repetitions[i] = wanted < 1 ? 1 : (unsigned)wanted;
    }
    for (int round = 0; round < rounds; round++)
        for (int i = 0; i < compared->count; i++) {
            double t = time_calls(&implementations[i], row, repetitions[i]);
            if (t < best[i])
                best[i] = t;
        }
}

/* ---- The table ---- */

static void print_head(int ns)
{
    printf("decode: thresholds J/4, J/8, 1, 0\n");
    printf("%-36s %8s ", "", compared->implementations[0].name);
    for (int i = 1; i < compared->count; i++)
        printf(" %11s", compared->implementations[i].name);
    printf("   passes changes%s\n%-36s %8s  %s\n", compared == &bits ? "  and at q = 3" : "", "", "ns/byte",
           ns ? "ns/byte" : compared->ratio);
}

static void print_row(const struct row *row, const double *best, const struct answer *answers, int ns)
{
    printf("%-36s %8.3f ", row->name, best[0] / row->symbols);
    for (int i = 1; i < compared->count; i++)
        if (ns)
            printf(" %11.3f", best[i] / row->symbols);
        else
            printf(" %11.2f", best[i] / best[0]);
    for (int i = 0; i < compared->count && row->call == DECODE; i++)
        if (i == 0 || compared->implementations[i].at_3)
            printf("   %6u %7u", (unsigned)number_at(answers[i].counts), (unsigned)number_at(answers[i].counts + 4));
    printf("\n");
    fflush(stdout);
}

/* The rows that bench/count counts; of the library alone all of them. */
static int to_count(const struct row *row, uint32_t damage)
{
    if (compared != &library_with_c)
        return 1;
    return (row->k == 1021 || row->positions == 32 || row->b == 4) &&
           (row->call == ENCODE || (row->call == DECODE && (damage == 0 || damage == 5)));
}

static void count_row(const struct row *row)
{
    static struct answer answer;
    for (int i = 0; i < compared->count; i++) {
        const struct implementation *by = &compared->implementations[i];
        if (strncmp(by->name, "plain", 5) != 0) {
            counted_call(by, row, &answer);
            printf("%u\t%s\t%s\n", (unsigned)row->symbols, by->name, row->name);
        }
    }
}

/* ---- Open and pass ---- */

/* Opens the row's page and makes one pass with its last threshold, or decodes it with that threshold alone: which. */
static uint32_t make_steps(const struct row *row, int which, struct answer *answer)
{
    uint32_t q = row->q, k = row->k, b = row->b, n = row->symbols, number;
    const uint8_t *table = row->table, *threshold = row->thresholds + sizeof row->thresholds - 1;
    size_t table_len = 2 * b * row->positions;
    if (which == 0)
        return qmtd_decode(q, k, b, table, table_len, row->page, n + k, threshold, 1, answer->result, n,
                           answer->syndrome, k, answer->difference, n, answer->margins, 4 * n, answer->counts,
                           sizeof answer->counts);
    number = qmtd_open(q, k, b, table, table_len, row->page, n + k, answer->result, n, answer->syndrome, k,
                       answer->difference, n);
    if (number != QMTD_OK || which == 1)
        return number;
    return qmtd_pass(q, k, b, table, table_len, *threshold, answer->result, n, answer->syndrome, k,
                     answer->difference, n, answer->counts + 4, QMTD_CHANGES_LEN);
}

/* Decode, open, and open with a pass: the fastest of many rounds of each, in turn, in nanoseconds a data symbol. */
static int print_steps(const struct row *row)
{
    static struct answer answers[3];
    double best[3] = {1e18, 1e18, 1e18};
    for (int round = 0; round < 200; round++)
        for (int which = 0; which < 3; which++) {
            double start = now();
            if (make_steps(row, which, &answers[which]) != QMTD_OK)
                return 0;
            double taken = (now() - start) / row->symbols;
            if (taken < best[which])
                best[which] = taken;
        }
    printf("%-36s %8.3f %8.3f %8.3f %8.2f   %7u\n", row->name, best[0], best[1], best[2], best[2] / best[0],
           (unsigned)number_at(answers[2].counts + 4));
    return memcmp(answers[0].result, answers[2].result, row->symbols) == 0 &&
           memcmp(answers[0].difference, answers[2].difference, row->symbols) == 0 &&
           memcmp(answers[0].syndrome, answers[2].syndrome, row->k) == 0 &&
           memcmp(answers[0].counts + 4, answers[2].counts + 4, QMTD_CHANGES_LEN) == 0;
}

int main(int argc, char **argv)
{
    const char *filter = "";
    int quick = 0, ns = 0, count = 0, passes = 0;
    for (int i = 1; i < argc; i++)
        if (strcmp(argv[i], "--quick") == 0) {
            quick = 1;
        } else if (strcmp(argv[i], "--ns") == 0) {
            ns = 1;
        } else if (strcmp(argv[i], "--count") == 0) {
            count = 1;
        } else if (strcmp(argv[i], "--before") == 0) {
            compared = &before;
        } else if (strcmp(argv[i], "--counters") == 0) {
            compared = &votes;
        } else if (strcmp(argv[i], "--outer") == 0) {
            compared = &outer;
        } else if (strcmp(argv[i], "--bits") == 0) {
            compared = &bits;
        } else if (strcmp(argv[i], "--passes") == 0) {
            passes = 1;
        } else if (strcmp(argv[i], "--rows") == 0 && i + 1 < argc) {
            filter = argv[++i];
        } else {
            fprintf(stderr, "bench [--quick] [--ns] [--count] [--before] [--counters] [--outer] [--bits] [--passes] "
                            "[--rows FILTER]\n");
            return 2;
        }
    if (compared->count < 2) {
        fprintf(stderr, "no archive to compare with: QMTD_BEFORE names one\n");
        return 2;
    }

    /* The whole table is swept several times: a burst of other load then spoils one sweep of a row, not all. */
    int sweeps = quick || count || passes ? 1 : 4, rounds = quick ? 5 : 30, rows = 0;
    double batch = quick ? 5e5 : 2e6;
    static double best[MAX_ROWS][MAX_IMPLEMENTATIONS];
    if (passes)
        printf("%-36s %8s %8s %8s %8s   %s\n", "ns a data symbol, one threshold, 0", "decode", "open", "and pass",
               "ratio", "changes");
    else if (!count)
        print_head(ns);
    for (int sweep = 0; sweep < sweeps; sweep++) {
        rows = 0;
        for (int c = 0; c < compared->code_count; c++)
            for (int a = 0; a < compared->alphabet_count; a++)
                for (enum call call = compared->first; call <= DECODE; call++)
                    for (int d = 0; d < DAMAGES; d++) {
                        static struct row row;
                        static struct answer answers[MAX_IMPLEMENTATIONS];
                        /* A table check does not depend on q; only a decode depends on the damage. */
                        if ((call == CHECK_TABLE && a > 0) || (call != DECODE && d > 0))
                            continue;
                        make_row(&row, &compared->codes[c], compared->alphabets[a], call, damages[d]);
                        if (strstr(row.name, filter) == NULL || (count && !to_count(&row, damages[d])))
                            continue;
                        if (passes) {
                            if (call == DECODE && !print_steps(&row)) {
                                fprintf(stderr, "%s: open and pass give something else than decode\n", row.name);
                                return 1;
                            }
                        } else if (count) {
                            count_row(&row);
                        } else {
                            if (!agree(&row, answers))
                                return 1;
                            measure(&row, rounds, batch, best[rows]);
                            if (sweep == sweeps - 1)
                                print_row(&row, best[rows], answers, ns);
                        }
                        rows++;
                    }
    }
    if (rows == 0) {
        fprintf(stderr, "no row has \"%s\" in its name\n", filter);
        return 2;
    }
    return 0;
}
