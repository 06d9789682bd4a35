/* damage.c - how much scattered damage codes put right, by fast.c:
 *
 *   damage [--q Q] [--pages N] [--thresholds LIST].. [PERCENT..]  <tables
 *
 * Reads tables as lines of docs/TABLES.md, `k: p p ..` or `k x b: p p ..; p p ..`. For each, so many pages of random
 * data (500) have that share of their symbols, drawn at random, replaced by others, and are decoded with eight
 * thresholds 0, or with each list given, as J/2,J/4,1,0*5. Prints rows of a Markdown table: the pages whose data came back
 * whole and, in brackets, how many data symbols in a million were not the ones sent. The pages are the same in every run
 * and for every list. */
#include "calls.h"

#include <stdio.h>
#include <stdlib.h>
#include <string.h>

encode_call fast_encode;
decode_call fast_decode;
check_table_call fast_check_table;

struct code {
    uint32_t q, k, b, positions;
    uint8_t table[QMTD_MAX_TABLE_LEN];
};

/* Thresholds: numbers, or J divided by them. */
struct list {
    unsigned len, of_j[QMTD_MAX_THRESHOLDS], numbers[QMTD_MAX_THRESHOLDS];
};
enum { LISTS = 32 };

static uint64_t generator;

/* xorshift64* */
static uint32_t draw(uint32_t below)
{
    generator ^= generator >> 12;
    generator ^= generator << 25;
    generator ^= generator >> 27;
    return (uint32_t)((generator * 0x2545F4914F6CDD1Du >> 32) * below >> 32);
}

/* Is the line an accepted table? */
static int read_line(char *line, struct code *code)
{
    char *at = line;
    code->positions = 0;
    code->b = 1;
    code->k = (uint32_t)strtoul(at, &at, 10);
    if (at[0] == ' ' && at[1] == 'x')
        code->b = (uint32_t)strtoul(at + 2, &at, 10);
    if (*at++ != ':')
        return 0;
    for (;;) {
        char *end;
        unsigned long p = strtoul(at, &end, 10);
        if (end == at || code->positions == QMTD_MAX_B * QMTD_MAX_J)
            break;
        code->table[2 * code->positions] = (uint8_t)(p & 255);
        code->table[2 * code->positions + 1] = (uint8_t)(p >> 8);
        code->positions++;
        at = *end == ';' ? end + 1 : end;
    }
    return fast_check_table(code->q, code->k, code->b, code->table, 2 * code->positions) == QMTD_OK;
}

/* Is the text a list of thresholds? 0*5 is five times 0. */
static int read_list(const char *text, struct list *list)
{
    list->len = 0;
    for (;;) {
        unsigned of_j = text[0] == 'J' && text[1] == '/';
        char *end;
        unsigned long number = strtoul(text + 2 * of_j, &end, 10), times = 1;
        if (end == text + 2 * of_j || number > QMTD_MAX_THRESHOLD || (of_j && number == 0))
            return 0;
        if (*end == '*')
            times = strtoul(end + 1, &end, 10);
        if (times == 0 || times > QMTD_MAX_THRESHOLDS - list->len)
            return 0;
        for (; times > 0; times--) {
            list->of_j[list->len] = of_j;
            list->numbers[list->len++] = (unsigned)number;
        }
        if (*end == '\0')
            return 1;
        if (*end != ',')
            return 0;
        text = end + 1;
    }
}

/* The thresholds of a list for a code. */
static void thresholds_of(const struct list *list, const struct code *code, uint8_t *thresholds)
{
    unsigned j = code->positions / code->b;
    for (unsigned i = 0; i < list->len; i++)
        thresholds[i] = (uint8_t)(list->of_j[i] ? j / list->numbers[i] : list->numbers[i]);
}

/* Damages and decodes so many pages; counts those put right and the wrong symbols of all. */
static void measure(const struct code *code, const uint8_t *thresholds, unsigned thresholds_len, unsigned pages,
                    unsigned percent, unsigned *right, unsigned long *wrong)
{
    static uint8_t data[QMTD_MAX_DATA], page[QMTD_MAX_PAGE_LEN], replaced[QMTD_MAX_PAGE_LEN];
    static uint8_t result[QMTD_MAX_DATA], syndrome[QMTD_MAX_K], difference[QMTD_MAX_DATA];
    static uint8_t margins[QMTD_MARGINS_LEN(QMTD_MAX_DATA, 1)], counts[QMTD_COUNTS_LEN];
    uint32_t q = code->q, k = code->k, b = code->b, n = b * k, len = n + k, table_len = 2 * code->positions;
    *right = 0;
    *wrong = 0;
    generator = 0x9E3779B97F4A7C15u;
    for (unsigned i = 0; i < pages; i++) {
        for (uint32_t j = 0; j < n; j++)
            data[j] = (uint8_t)draw(q);
        if (fast_encode(q, k, b, code->table, table_len, data, n, page, len) != QMTD_OK)
            exit(1);
        memset(replaced, 0, len);
        for (uint32_t left = (len * percent + 99) / 100; left > 0;) {
            uint32_t at = draw(len);
            if (replaced[at])
                continue;
            replaced[at] = 1;
            page[at] = (uint8_t)((page[at] + 1 + draw(q - 1)) % q);
            left--;
        }
        if (fast_decode(q, k, b, code->table, table_len, page, len, thresholds, thresholds_len, result, n, syndrome,
                        k, difference, n, margins, 4 * n, counts, sizeof counts) != QMTD_OK)
            exit(1);
        unsigned long others = 0;
        for (uint32_t j = 0; j < n; j++)
            others += result[j] != data[j];
        *wrong += others;
        *right += others == 0;
    }
}

/* Prints thresholds; more than four equal ones as 0 x 5. */
static void print_thresholds(const uint8_t *thresholds, unsigned len)
{
    for (unsigned i = 0, times; i < len; i += times) {
        for (times = 1; i + times < len && thresholds[i + times] == thresholds[i];)
            times++;
        if (times <= 4)
            times = 1;
        printf("%s%u", i == 0 ? "" : ", ", thresholds[i]);
        if (times > 1)
            printf(" x %u", times);
    }
}

/* A row of the table: one code and one list. The second column is the rate, or the thresholds where these are given. */
static void print_row(const struct code *code, const struct list *list, int given, unsigned pages,
                      const unsigned *percents, unsigned shares)
{
    uint8_t thresholds[QMTD_MAX_THRESHOLDS];
    thresholds_of(list, code, thresholds);
    printf("| %u, %u, %u | ", (unsigned)code->b, (unsigned)code->k, (unsigned)(code->positions / code->b));
    if (given)
        print_thresholds(thresholds, list->len);
    else
        printf("%u/%u", (unsigned)code->b, (unsigned)code->b + 1);
    printf(" |");
    for (unsigned i = 0; i < shares; i++) {
        unsigned right;
        unsigned long wrong;
        measure(code, thresholds, list->len, pages, percents[i], &right, &wrong);
        printf(" %u (%.0f) |", right, (double)wrong * 1e6 / ((double)pages * code->b * code->k));
        fflush(stdout);
    }
    printf("\n");
}

int main(int argc, char **argv)
{
    static char line[4096];
    static struct list lists[LISTS];
    unsigned percents[16] = {0}, shares = 0, given = 0, pages = 500;
    struct code code = {.q = 256};
    for (int i = 1; i < argc; i++)
        if (strcmp(argv[i], "--q") == 0 && i + 1 < argc) {
            code.q = (uint32_t)strtoul(argv[++i], NULL, 10);
        } else if (strcmp(argv[i], "--pages") == 0 && i + 1 < argc) {
            pages = (unsigned)strtoul(argv[++i], NULL, 10);
        } else if (strcmp(argv[i], "--thresholds") == 0 && i + 1 < argc && given < LISTS) {
            if (!read_list(argv[++i], &lists[given++]))
                return printf("not a list of thresholds: %s\n", argv[i]), 1;
        } else if (shares < 16) {
            percents[shares++] = (unsigned)strtoul(argv[i], NULL, 10);
        }
    if (shares == 0)
        for (unsigned percent = 2; percent <= 20; percent += 3)
            percents[shares++] = percent;
    if (given == 0)
        read_list("0*8", &lists[0]);

    printf("| b, k, J | %s |", given ? "thresholds" : "rate");
    for (unsigned i = 0; i < shares; i++)
        printf(" %u %% |", percents[i]);
    printf("\n");
    while (fgets(line, sizeof line, stdin)) {
        if (!read_line(line, &code))
            return printf("not an accepted table: %s", line), 1;
        for (unsigned i = 0; i < (given ? given : 1); i++)
            print_row(&code, &lists[i], given > 0, pages, percents, shares);
    }
    return 0;
}
