/* fast_wide.c - the four calls on symbols of WIDTH bytes, 2 or 4, by the steps that the library takes, as fast as C makes
 * them without intrinsics on a processor that has a number's low byte first.
 *
 * Rows go in straight runs and the zeros among the estimates of each symbol are kept, as fast.c has it, the zeros counted
 * from one byte a check. A vote counts the low bytes of the estimates first: where no low byte stands often enough, no
 * value does. Everything is worked on where the caller lent it, by loads that want no alignment.
 *
 * CALL(name) makes the names, fast_u16_gcc_encode and so on. */
#include "fast.h"
#include "wide_calls.h"

#if WIDTH == 2
typedef uint16_t number_of_width;
#else
typedef uint32_t number_of_width;
#endif

/* A symbol in memory that is not aligned and may be any bytes. */
typedef number_of_width symbol __attribute__((aligned(1), may_alias));

wide_check_table_call CALL(check_table);
wide_encode_call CALL(encode);
wide_syndrome_call CALL(syndrome);
wide_decode_call CALL(decode);

uint32_t CALL(check_table)(uint32_t k, uint32_t b, const uint8_t *table, uint64_t table_len)
{
    struct branches branches;
    return read_table(k, b, table, table_len, &branches);
}

/* ---- Whole runs of symbols ---- */

/* The archive takes nothing but memset from the C library, so neither does this; with -DLIBC_COPY it copies by memcpy. */
#ifdef LIBC_COPY
#define copy_run(to, symbols, n) memcpy(to, symbols, WIDTH * (n))
#else
static void copy_run(symbol *restrict to, const symbol *restrict symbols, size_t n)
{
    for (size_t i = 0; i < n; i++)
        to[i] = symbols[i];
}
#endif

static void add_run(symbol *restrict sums, const symbol *restrict symbols, size_t n)
{
    for (size_t i = 0; i < n; i++)
        sums[i] = (number_of_width)(sums[i] + symbols[i]);
}

static void add_two_runs(symbol *restrict sums, const symbol *restrict one, const symbol *restrict other, size_t n)
{
    for (size_t i = 0; i < n; i++)
        sums[i] = (number_of_width)(sums[i] + one[i] + other[i]);
}

static void write_difference(symbol *restrict to, const symbol *restrict symbols, const symbol *restrict less, size_t n)
{
    for (size_t i = 0; i < n; i++)
        to[i] = (number_of_width)(symbols[i] - less[i]);
}

/* Adds two rows in one pass, as three straight runs. The row of a position is the data of its branch rotated by it. */
static void add_two_rows(size_t k, symbol *restrict sums, const symbol *one, size_t p, const symbol *other, size_t r)
{
    if (p > r) {
        const symbol *data = one;
        size_t position = p;
        one = other, p = r;
        other = data, r = position;
    }
    add_two_runs(sums + r, one + (r - p), other, k - r);
    add_two_runs(sums + p, one, other + (k - r + p), r - p);
    add_two_runs(sums, one + (k - p), other + (k - r), p);
}

/* Adds the rows of all positions of all branches but the first of the first, two at a time. */
static void add_rows(size_t k, const struct branches *branches, const symbol *restrict data, symbol *restrict sums)
{
    const symbol *one = NULL; /* the data of a row that has no second yet, and its position */
    size_t p = 0, a = 1;
    for (size_t r = 0; r < branches->count; r++, data += k, a = 0)
        for (; a < branches->of[r].count; a++) {
            if (one == NULL) {
                one = data;
                p = branches->of[r].at[a];
            } else {
                add_two_rows(k, sums, one, p, data, branches->of[r].at[a]);
                one = NULL;
            }
        }
    if (one != NULL) {
        add_run(sums + p, one, k - p);
        add_run(sums, one + (k - p), p);
    }
}

uint32_t CALL(encode)(uint32_t k, uint32_t b, const uint8_t *table, uint64_t table_len,
                      const uint8_t *data, uint64_t data_len, uint8_t *page, uint64_t page_len)
{
    struct branches branches;
    uint32_t number = read_table(k, b, table, table_len, &branches);
    if (number != QMTD_OK)
        return number;
    size_t n = (size_t)b * k, p = branches.of[0].at[0];
    if (data_len != WIDTH * n || page_len != WIDTH * (n + k))
        return QMTD_BAD_LENGTH;

    const symbol *from = (const symbol *)data;
    symbol *to = (symbol *)page;
    copy_run(to, from, n);
    copy_run(to + n + p, from, k - p);
    copy_run(to + n, from + (k - p), p);
    add_rows(k, &branches, from, to + n);
    return QMTD_OK;
}

/* The page's checks are subtracted from the first row as it is written. */
static void work_out_syndrome(size_t k, const struct branches *branches, const symbol *restrict page,
                              symbol *restrict syndrome)
{
    size_t p = branches->of[0].at[0];
    const symbol *checks = page + branches->count * k;
    write_difference(syndrome + p, page, checks + p, k - p);
    write_difference(syndrome, page + (k - p), checks, p);
    add_rows(k, branches, page, syndrome);
}

uint32_t CALL(syndrome)(uint32_t k, uint32_t b, const uint8_t *table, uint64_t table_len,
                        const uint8_t *page, uint64_t page_len, uint8_t *syndrome, uint64_t syndrome_len)
{
    struct branches branches;
    uint32_t number = read_table(k, b, table, table_len, &branches);
    if (number != QMTD_OK)
        return number;
    if (page_len != WIDTH * ((size_t)b + 1) * k || syndrome_len != WIDTH * (size_t)k)
        return QMTD_BAD_LENGTH;
    work_out_syndrome(k, &branches, (const symbol *)page, (symbol *)syndrome);
    return QMTD_OK;
}

/* ---- Marks ---- */

/* One byte a check: 0 where the symbol of the syndrome is 0. Returns how many are not. */
static uint32_t mark(uint8_t *restrict marks, const symbol *restrict syndrome, size_t k)
{
    uint32_t count = 0;
    for (size_t i = 0; i < k; i++) {
        marks[i] = syndrome[i] != 0;
        count += marks[i];
    }
    return count;
}

/* ---- Votes ---- */

/* The estimates of a symbol, gathered. */
static inline void gather(number_of_width difference, const symbol *checks, const ptrdiff_t *offsets, size_t n,
                          number_of_width *estimates)
{
    estimates[0] = difference;
    for (size_t a = 0; a < n; a++)
        estimates[a + 1] = checks[offsets[a]];
}

static inline uint32_t equal_to(number_of_width value, const number_of_width *estimates, size_t n)
{
    uint32_t count = 0;
    for (size_t a = 0; a < n; a++)
        count += estimates[a] == value;
    return count;
}

/* The value that leads all others by more than the threshold, or 0 if none does; zero itself has `zeros` votes. Low bytes
 * are counted first, so that a count reaches 128 where values with this low byte lead zero by more than the threshold;
 * most votes end without. */
static inline number_of_width vote(const number_of_width *estimates, size_t n, uint32_t zeros, uint32_t threshold)
{
    uint8_t votes[256], counts = 0;
    uint32_t lead = 0, next = 0;
    number_of_width leader = 0;
    fill(votes, 256, (uint8_t)(127 - zeros - threshold));
    votes[0] = (uint8_t)(votes[0] - zeros);
    for (size_t a = 0; a < n; a++)
        counts |= ++votes[(uint8_t)estimates[a]];
    if (counts < 128)
        return 0;

    for (size_t a = 0; a < n; a++) {
        number_of_width value = estimates[a];
        if (value == leader)
            continue;
        uint32_t count = equal_to(value, estimates + a, n - a); /* all of them where the value is met first */
        if (count > lead) {
            next = lead;
            lead = count;
            leader = value;
        } else if (count > next) {
            next = count;
        }
    }
    return leader != 0 && lead > next + threshold ? leader : 0;
}

/* The largest count of a value other than 0. */
static inline uint32_t most_other(const number_of_width *estimates, size_t n)
{
    uint32_t most = 0;
    for (size_t a = 0; a + most < n; a++)
        if (estimates[a] != 0) {
            uint32_t count = equal_to(estimates[a], estimates + a, n - a);
            most = count > most ? count : most;
        }
    return most;
}

/* ---- Passes ---- */

/* The visits of one pass to one branch. Result and difference are the branch's, the zeros those of all. */
APART static void visit_branch(size_t k, const struct branches *restrict branches, size_t branch, uint32_t threshold,
                               symbol *restrict result, symbol *restrict syndrome, symbol *restrict difference,
                               uint8_t *restrict all_zeros, struct tally *tally)
{
    const struct positions *positions = &branches->of[branch];
    uint8_t *zeros = zeros_of(all_zeros, k, branch);
    size_t n = positions->count, count = branches->count;
    uint32_t changes = 0, gained = 0;
    struct offsets offsets;
    start_offsets(positions, &offsets);

    /* Where zeros are this many, no value can lead them by more than the threshold. */
    uint32_t bound = n + 1 < threshold ? 0 : (uint32_t)(n + 2 - threshold) / 2;
    for (size_t from = past_blocks(zeros, k, 0, bound); from < k; from = past_blocks(zeros, k, from + 8, bound))
        for (uint64_t open = below(zeros, k, from, bound), later; open != 0;) {
            size_t j = from + first_of(open);
            symbol *checks = syndrome + j;
            number_of_width estimates[QMTD_MAX_J + 1];
            move_offsets(k, positions, j, &offsets);
            gather(difference[j], checks, offsets.at, n, estimates);
            number_of_width h = vote(estimates, n + 1, zeros_at(zeros, k, j), threshold);
            later = ~(open ^ (open - 1));
            open &= later;
            if (h == 0)
                continue;

            changes++;
            result[j] = (number_of_width)(result[j] - h);
            number_of_width own = (number_of_width)(estimates[0] - h);
            int change = (own == 0) - (estimates[0] == 0);
            difference[j] = own;
            zeros[k + j] += (uint8_t)change;
            gained += (uint32_t)change;
            for (size_t a = 0; a < n; a++) {
                symbol *check = checks + offsets.at[a];
                number_of_width left = (number_of_width)(estimates[a + 1] - h);
                change = (left == 0) - (estimates[a + 1] == 0);
                *check = left;
                gained += (uint32_t)change;
                if (change != 0)
                    for (size_t r = 0; r < count; r++)
                        recount(zeros_of(all_zeros, k, r) + (check - syndrome), branches->of[r].back, n,
                                (uint8_t)change);
            }
            open = below(zeros, k, from, bound) & later;
        }
    tally->changes += changes;
    tally->distance -= gained;
}

/* ---- Margins ---- */

/* The margins of a branch: all in a straight run, then again those of symbols with two estimates or more that are not
 * 0. */
static void write_margins(size_t k, const struct positions *restrict positions, const symbol *restrict syndrome,
                          const symbol *restrict difference, const uint8_t *restrict zeros, uint8_t *restrict margins)
{
    size_t n = positions->count;
    uint32_t one = (uint32_t)n; /* the zeros where one estimate is not 0 */
    write_margins_of_zeros(margins, zeros, k, (uint32_t)n + 1);

    struct offsets offsets;
    start_offsets(positions, &offsets);
    for (size_t from = past_blocks(zeros, k, 0, one); from < k; from = past_blocks(zeros, k, from + 8, one))
        for (uint64_t left = below(zeros, k, from, one); left != 0; left &= left - 1) {
            size_t j = from + first_of(left);
            number_of_width estimates[QMTD_MAX_J + 1];
            move_offsets(k, positions, j, &offsets);
            gather(difference[j], syndrome + j, offsets.at, n, estimates);
            put_number(margins, j, zeros_at(zeros, k, j) - most_other(estimates, n + 1));
        }
}

uint32_t CALL(decode)(uint32_t k, uint32_t b, const uint8_t *table, uint64_t table_len,
                      const uint8_t *page, uint64_t page_len, const uint8_t *thresholds, uint64_t thresholds_len,
                      uint8_t *result, uint64_t result_len, uint8_t *syndrome, uint64_t syndrome_len,
                      uint8_t *difference, uint64_t difference_len, uint8_t *margins, uint64_t margins_len,
                      uint8_t *counts, uint64_t counts_len)
{
    struct branches branches;
    uint32_t number = read_table(k, b, table, table_len, &branches);
    if (number != QMTD_OK)
        return number;
    size_t n = (size_t)b * k;
    if (page_len != WIDTH * (n + k) || result_len != WIDTH * n || syndrome_len != WIDTH * (size_t)k ||
        difference_len != WIDTH * n || margins_len != 4 * n || counts_len != QMTD_COUNTS_LEN)
        return QMTD_BAD_LENGTH;
    if (thresholds_len < QMTD_MIN_THRESHOLDS || thresholds_len > QMTD_MAX_THRESHOLDS)
        return QMTD_BAD_THRESHOLD_COUNT;
    for (size_t i = 0; i < thresholds_len; i++)
        if (thresholds[i] > QMTD_MAX_THRESHOLD)
            return QMTD_BAD_THRESHOLD;

    symbol *r = (symbol *)result, *s = (symbol *)syndrome, *d = (symbol *)difference;
    uint8_t marks[QMTD_MAX_K];
    copy_run(r, (const symbol *)page, n);
    memset(difference, 0, WIDTH * n);
    work_out_syndrome(k, &branches, (const symbol *)page, s);

    /* A pass is run where its threshold is below the limit: that of the pass before it, if this was idle, else none. A
     * page at distance 0 needs no visits: no pass changes anything, and every estimate is 0. */
    uint32_t start = mark(marks, s, k), passes = 0, limit = QMTD_MAX_THRESHOLD + 1;
    struct tally tally = {0, start};
    if (start > 0) {
        uint8_t zeros[MAX_ZEROS];
        for (size_t branch = 0; branch < b; branch++)
            start_zeros(k, &branches.of[branch], marks, zeros_of(zeros, k, branch));
        for (size_t i = 0; i < thresholds_len; i++) {
            uint32_t threshold = thresholds[i], before = tally.changes;
            if (threshold >= limit)
                continue;
            for (size_t branch = 0; branch < b; branch++)
                visit_branch(k, &branches, branch, threshold, r + branch * k, s, d + branch * k, zeros, &tally);
            passes++;
            limit = tally.changes == before ? threshold : QMTD_MAX_THRESHOLD + 1;
        }
        for (size_t branch = 0; branch < b; branch++)
            write_margins(k, &branches.of[branch], s, d + branch * k, zeros_of(zeros, k, branch),
                          margins + 4 * branch * k);
    } else {
        for (size_t i = 0; i < thresholds_len; i++)
            if (thresholds[i] < limit) {
                limit = thresholds[i];
                passes++;
            }
        fill_margins(margins, n, (uint32_t)branches.of[0].count + 1);
    }

    put_number(counts, 0, passes);
    put_number(counts, 1, tally.changes);
    put_number(counts, 2, start);
    put_number(counts, 3, tally.distance);
    return QMTD_OK;
}
