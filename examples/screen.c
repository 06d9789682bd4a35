/* screen.c - a bench screen: opens a damaged page and shows it after each pass, then decodes it, prints its data
 * symbols by how firmly they stand, and tells of one of them why it is left, or that a visit would change it.
 *
 *   screen [REPLACED [SYMBOL]]    how many of the page's 512 symbols the lead replaces, 80 where it is not given; and
 *                                 the number of a data symbol, 0 to 255: where it is not given the weakest, by margin
 *
 * Colours go to a terminal; where the output is none, or NO_COLOR is set, the marks alone tell.
 * Build: cc -std=c99 -Iinclude examples/screen.c build/x86-64/libqmtd.a */
#define _POSIX_C_SOURCE 200112L
#include "qmtd.h"

#include <stdio.h>
#include <stdlib.h>
#include <unistd.h>

/* One branch of 256 data symbols of any byte value, positions 0, 1, 3, 7. */
enum { Q = 256, K = 256, B = 1, J = 4, ROWS = 16, COLUMNS = 16, IN_LINE = 32 };
static const uint8_t table[QMTD_TABLE_LEN(B, J)] = {QMTD_POSITION(0), QMTD_POSITION(1),
                                                    QMTD_POSITION(3), QMTD_POSITION(7)};
static const uint8_t thresholds[] = {1, 0, 0, 0, 0, 0, 0, 0};

static uint8_t sent[K], page[QMTD_PAGE_LEN(K, B)];
static uint8_t result[K], syndrome[K], difference[K], changes[QMTD_CHANGES_LEN];
static uint8_t margins[QMTD_MARGINS_LEN(K, B)], counts[QMTD_COUNTS_LEN], answer[QMTD_ANSWER_LEN];

/* How a symbol stands: firm where its margin is above J/2, weak where another value has at least as many votes as 0. */
enum standing { FIRM, DOUBTFUL, WEAK, STANDINGS };

static const struct {
    const char *name, *margin, *colour;
    char mark;
} shown[STANDINGS] = {
    {"firm", "margin above J/2", "\033[32m", ' '},
    {"doubtful", "margin 1 to J/2", "\033[1;33m", '?'},
    {"weak", "margin 0 or less", "\033[1;37;41m", '!'},
};

static enum standing standing(int32_t margin)
{
    return margin > J / 2 ? FIRM : margin > 0 ? DOUBTFUL : WEAK;
}

/* The pack's table: the allowed current in ampere by temperature, falling with the charge. */
static void make_data(void)
{
    static const unsigned at_empty[ROWS] = {0, 0, 4, 8, 16, 24, 32, 40, 40, 40, 36, 32, 24, 16, 8, 0};
    for (unsigned j = 0; j < K; j++)
        sent[j] = (uint8_t)(at_empty[j / COLUMNS] * (COLUMNS - j % COLUMNS) / COLUMNS);
}

static uint32_t draw(uint32_t below)
{
    static uint32_t state = 1;
    state = state * 1664525u + 1013904223u;
    return (state >> 16) % below;
}

/* The lead replaces so many different symbols of the page by others. */
static void damage(unsigned replaced)
{
    uint8_t hit[sizeof page] = {0};
    while (replaced > 0) {
        uint32_t place = draw(sizeof page);
        if (hit[place])
            continue;
        hit[place] = 1;
        page[place] = (uint8_t)((page[place] + 1 + draw(Q - 1)) % Q);
        replaced--;
    }
}

static int in_colour(void)
{
    const char *no_color = getenv("NO_COLOR");
    return isatty(STDOUT_FILENO) && (no_color == NULL || *no_color == '\0');
}

static const char *colour(enum standing s, int colours)
{
    return colours ? shown[s].colour : "";
}

static const char *no_colour(int colours)
{
    return colours ? "\033[0m" : "";
}

static unsigned nonzero(const uint8_t *symbols)
{
    unsigned count = 0;
    for (unsigned i = 0; i < K; i++)
        count += symbols[i] != 0;
    return count;
}

/* A line's symbols, marked where they are not 0. */
static void print_marks(const uint8_t *symbols, int colours)
{
    for (int i = 0; i < IN_LINE; i++) {
        if (i % COLUMNS == 0)
            printf(" ");
        if (symbols[i] == 0)
            printf(".");
        else
            printf("%s#%s", colour(DOUBTFUL, colours), no_colour(colours));
    }
}

/* The page as the opening or a pass left it: the difference on the left, the syndrome on the right. Data symbol j is in
 * the checks j, j + 1, j + 3, j + 7 (mod K): these stand at its place and right after it. Where nothing was changed the
 * view before serves still. */
static void print_view(int changed, int colours)
{
    printf(": %u data symbols differ, %u checks are not 0\n", nonzero(difference), nonzero(syndrome));
    for (int at = 0; changed && at < K; at += IN_LINE) {
        printf("%5d ", at);
        print_marks(difference + at, colours);
        printf("   ");
        print_marks(syndrome + at, colours);
        printf("\n");
    }
    printf("\n");
}

/* Which pass decode makes after the one at a place of the list: the next, or after one without a change the first later
 * one with a smaller threshold. */
static size_t next_pass(size_t at, unsigned made)
{
    size_t next = at + 1;
    while (made == 0 && next < sizeof thresholds && thresholds[next] >= thresholds[at])
        next++;
    return next;
}

/* Opens the page and makes decode's passes one by one, with a view after each. Were all calls taken? */
static int show_passes(int colours)
{
    unsigned passes = 0, made = 0;
    printf("The page after each pass, %d data symbols and %d checks in a line: # on the left is a data symbol that\n"
           "differs from the one received, # on the right a check that is not 0.\n\n", IN_LINE, IN_LINE);
    if (qmtd_open(Q, K, B, table, sizeof table, page, sizeof page, result, K, syndrome, K, difference, K) != QMTD_OK)
        return 0;
    printf("Opened");
    print_view(1, colours);
    for (size_t at = 0; at < sizeof thresholds; at = next_pass(at, made)) {
        if (qmtd_pass(Q, K, B, table, sizeof table, thresholds[at], result, K, syndrome, K, difference, K,
                      changes, sizeof changes) != QMTD_OK)
            return 0;
        made = qmtd_number(changes);
        printf("Pass %u, threshold %d, changes %u", ++passes, thresholds[at], made);
        print_view(made > 0, colours);
    }
    return 1;
}

static void print_page(int colours)
{
    printf("Allowed current in ampere, a row for each temperature, charge 0/16 to 15/16:\n");
    for (int row = 0; row < ROWS; row++) {
        printf("%4d C ", 5 * row - 20);
        for (int j = COLUMNS * row; j < COLUMNS * (row + 1); j++) {
            enum standing s = standing(qmtd_margin(margins, (uint64_t)j));
            printf("%s%3d%c%s", colour(s, colours), result[j], shown[s].mark, no_colour(colours));
        }
        printf("\n");
    }
}

/* The legend, with how many symbols stand so and how many of these are not what was sent. A bench does not know the
 * latter. */
static void print_legend(int colours)
{
    unsigned all[STANDINGS] = {0}, wrong[STANDINGS] = {0};
    for (unsigned j = 0; j < K; j++) {
        enum standing s = standing(qmtd_margin(margins, j));
        all[s]++;
        wrong[s] += result[j] != sent[j];
    }
    printf("J is %d: a margin can be %d to %d.\n", J, -(J + 1), J + 1);
    for (int s = FIRM; s < STANDINGS; s++)
        printf("%s%c %-8s%s  %-16s  %3u symbols, %u not as sent\n", colour((enum standing)s, colours), shown[s].mark,
               shown[s].name, no_colour(colours), shown[s].margin, all[s], wrong[s]);
}

/* The first of the symbols with the smallest margin. */
static unsigned weakest(void)
{
    unsigned at = 0;
    for (unsigned j = 1; j < K; j++)
        if (qmtd_margin(margins, j) < qmtd_margin(margins, at))
            at = j;
    return at;
}

/* What a visit with the list's last threshold would do to a symbol of the buffers as they stand, why, and which of the
 * symbol's estimates speak for the commonest value. Was the call taken? */
static int explain(const char *when, unsigned symbol)
{
    const unsigned threshold = thresholds[sizeof thresholds - 1];
    if (qmtd_explain(Q, K, B, table, sizeof table, threshold, symbol, result, K, syndrome, K, difference, K,
                     answer, sizeof answer) != QMTD_OK)
        return 0;
    const unsigned h0 = qmtd_number(answer + 4), m0 = qmtd_number(answer + 8), m1 = qmtd_number(answer + 12);
    unsigned left = m0;
    printf("%s it is %u. Of %d votes %u has %u, the next value %u. A visit with threshold %u\n", when, result[symbol],
           J + 1, h0, m0, m1, threshold);
    switch (qmtd_number(answer)) {
    case QMTD_GROUND_NO_LEAD:
        printf("  leaves it: the lead is not above the threshold.\n");
        break;
    case QMTD_GROUND_ZERO:
        printf("  leaves it: 0 leads, so that nothing is to be subtracted.\n");
        break;
    default:
        printf("  would change it to %u.\n", (result[symbol] + Q - h0) % Q);
    }
    printf("  For %u speak:", h0);
    for (unsigned n = 0; n <= J; n++) {
        if ((answer[16 + n / 8] >> n % 8 & 1) == 0)
            continue;
        if (n == 0)
            printf(" the difference");
        else
            printf(" check %u", (symbol + table[2 * n - 2]) % K);
        printf(--left > 0 ? "," : "\n");
    }
    return 1;
}

/* A symbol as the decode handed it back, then as it was received. Were all calls taken? */
static int explain_symbol(unsigned symbol)
{
    printf("\nSymbol %u, %d C and charge %u/16:\n", symbol, 5 * (int)(symbol / COLUMNS) - 20, symbol % COLUMNS);
    return explain("After the passes", symbol) &&
           qmtd_open(Q, K, B, table, sizeof table, page, sizeof page, result, K, syndrome, K, difference, K) ==
               QMTD_OK &&
           explain("As received", symbol);
}

/* The number that an argument is; `most` + 1 where it is none up to `most`. */
static unsigned argument(const char *text, unsigned most)
{
    char *end;
    unsigned long number = strtoul(text, &end, 10);
    return end == text || *end != '\0' || number > most ? most + 1 : (unsigned)number;
}

int main(int argc, char **argv)
{
    unsigned replaced = argc > 1 ? argument(argv[1], sizeof page) : 80;
    unsigned symbol = argc > 2 ? argument(argv[2], K - 1) : 0;
    if (argc > 3 || replaced > sizeof page || symbol >= K) {
        fprintf(stderr, "screen [REPLACED [SYMBOL]], 0 to %u and 0 to %u\n", (unsigned)sizeof page, K - 1);
        return 2;
    }
    make_data();
    if (qmtd_encode(Q, K, B, table, sizeof table, sent, K, page, sizeof page) != QMTD_OK)
        return 1;
    damage(replaced);
    int colours = in_colour();
    if (!show_passes(colours))
        return 1;
    if (qmtd_decode(Q, K, B, table, sizeof table, page, sizeof page, thresholds, sizeof thresholds, result, K,
                    syndrome, K, difference, K, margins, sizeof margins, counts, sizeof counts) != QMTD_OK)
        return 1;
    print_page(colours);
    print_legend(colours);
    const unsigned passes = qmtd_number(counts), changed = qmtd_number(counts + 4);
    const unsigned start = qmtd_number(counts + 8), end = qmtd_number(counts + 12);
    printf("%u symbols replaced; passes %u, changes %u, distance %u at the start, %u at the end\n", replaced, passes,
           changed, start, end);
    return explain_symbol(argc > 2 ? symbol : weakest()) ? 0 : 1;
}
