/* fast.c - the four calls by the steps that the library takes, as fast as C makes them without intrinsics.
 *
 * CALL(name) makes the names, fast_encode and so on; another prefix keeps the objects of two compilers apart. */
#include "fast.h"

#ifndef CALL
#define CALL(name) fast_##name
#endif

check_table_call CALL(check_table);
encode_call CALL(encode);
syndrome_call CALL(syndrome);
decode_call CALL(decode);

static uint32_t read_code(uint32_t q, uint32_t k, uint32_t b, const uint8_t *table, uint64_t table_len,
                          struct branches *branches)
{
    if (q < QMTD_MIN_Q || q > QMTD_MAX_Q)
        return QMTD_BAD_Q;
    return read_table(k, b, table, table_len, branches);
}

uint32_t CALL(check_table)(uint32_t q, uint32_t k, uint32_t b, const uint8_t *table, uint64_t table_len)
{
    struct branches branches;
    return read_code(q, k, b, table, table_len, &branches);
}

/* ---- Whole runs of symbols ---- */

/* The archive takes nothing but memset from the C library, so neither does this; with -DLIBC_COPY it copies by memcpy. */
#ifdef LIBC_COPY
#define copy_run memcpy
#else
static void copy_run(uint8_t *restrict to, const uint8_t *restrict symbols, size_t n)
{
    for (size_t i = 0; i < n; i++)
        to[i] = symbols[i];
}
#endif

/* Is a symbol q or more? Looks at all of them, in lanes: without an early exit the loop runs on vectors. */
static int out_of_range(uint32_t q, const uint8_t *symbols, size_t n)
{
    uint8_t over = 0;
    size_t i = 0;
    if (q == 256)
        return 0;
    if (n >= LANES) {
        uint8_t largest[LANES] = {0};
        for (; i + LANES <= n; i += LANES)
            for (size_t lane = 0; lane < LANES; lane++)
                largest[lane] = symbols[i + lane] > largest[lane] ? symbols[i + lane] : largest[lane];
        for (size_t lane = 0; lane < LANES; lane++)
            over |= largest[lane] >= q;
    }
    for (; i < n; i++)
        over |= symbols[i] >= q;
    return over;
}

/* The nonzero symbols. The zeros are counted in lanes of a byte; n is at most 64 * LANES, so no lane overflows. */
static uint32_t weight(const uint8_t *symbols, size_t n)
{
    uint32_t all = 0;
    size_t i = 0;
    if (n >= LANES) {
        uint8_t zeros[LANES] = {0};
        for (; i + LANES <= n; i += LANES)
            for (size_t lane = 0; lane < LANES; lane++)
                zeros[lane] += symbols[i + lane] == 0;
        for (size_t lane = 0; lane < LANES; lane++)
            all += zeros[lane];
    }
    for (; i < n; i++)
        all += symbols[i] == 0;
    return (uint32_t)n - all;
}

/* a + b and a - b modulo q. q is taken modulo 256, so that at q = 256 both cases are the plain wrapping byte. */
static inline uint8_t add(uint8_t q, uint8_t a, uint8_t b)
{
    uint8_t room = (uint8_t)(q - b), back = a < room ? q : 0;
    return (uint8_t)((uint8_t)(a - room) + back);
}

static inline uint8_t subtract(uint8_t q, uint8_t a, uint8_t b)
{
    uint8_t back = a < b ? q : 0;
    return (uint8_t)((uint8_t)(a - b) + back);
}

static void add_run(uint32_t q, uint8_t *restrict sums, const uint8_t *restrict symbols, size_t n)
{
    if (q == 256)
        for (size_t i = 0; i < n; i++)
            sums[i] = (uint8_t)(sums[i] + symbols[i]);
    else
        for (size_t i = 0; i < n; i++)
            sums[i] = add((uint8_t)q, sums[i], symbols[i]);
}

static void add_two_runs(uint32_t q, uint8_t *restrict sums, const uint8_t *restrict one, const uint8_t *restrict other,
                         size_t n)
{
    if (q == 256)
        for (size_t i = 0; i < n; i++)
            sums[i] = (uint8_t)(sums[i] + one[i] + other[i]);
    else
        for (size_t i = 0; i < n; i++)
            sums[i] = add((uint8_t)q, add((uint8_t)q, sums[i], one[i]), other[i]);
}

static void write_difference(uint32_t q, uint8_t *restrict to, const uint8_t *restrict symbols,
                             const uint8_t *restrict less, size_t n)
{
    if (q == 256)
        for (size_t i = 0; i < n; i++)
            to[i] = (uint8_t)(symbols[i] - less[i]);
    else
        for (size_t i = 0; i < n; i++)
            to[i] = subtract((uint8_t)q, symbols[i], less[i]);
}

/* Adds two rows in one pass, as three straight runs, so that a sum is loaded and stored once for both. The row of a
 * position is the data of its branch rotated by it. */
static void add_two_rows(uint32_t q, size_t k, uint8_t *restrict sums, const uint8_t *one, size_t p,
                         const uint8_t *other, size_t r)
{
    if (p > r) {
        const uint8_t *data = one;
        size_t position = p;
        one = other, p = r;
        other = data, r = position;
    }
    add_two_runs(q, sums + r, one + (r - p), other, k - r);
    add_two_runs(q, sums + p, one, other + (k - r + p), r - p);
    add_two_runs(q, sums, one + (k - p), other + (k - r), p);
}

/* Adds the rows of all positions of all branches but the first of the first, two at a time. */
static void add_rows(uint32_t q, size_t k, const struct branches *branches, const uint8_t *restrict data,
                     uint8_t *restrict sums)
{
    const uint8_t *one = NULL; /* the data of a row that has no second yet, and its position */
    size_t p = 0, a = 1;
    for (size_t r = 0; r < branches->count; r++, data += k, a = 0)
        for (; a < branches->of[r].count; a++) {
            if (one == NULL) {
                one = data;
                p = branches->of[r].at[a];
            } else {
                add_two_rows(q, k, sums, one, p, data, branches->of[r].at[a]);
                one = NULL;
            }
        }
    if (one != NULL) {
        add_run(q, sums + p, one, k - p);
        add_run(q, sums, one + (k - p), p);
    }
}

uint32_t CALL(encode)(uint32_t q, uint32_t k, uint32_t b, const uint8_t *table, uint64_t table_len,
                      const uint8_t *data, uint64_t data_len, uint8_t *page, uint64_t page_len)
{
    struct branches branches;
    uint32_t number = read_code(q, k, b, table, table_len, &branches);
    if (number != QMTD_OK)
        return number;
    size_t n = (size_t)b * k;
    if (data_len != n || page_len != n + k)
        return QMTD_BAD_LENGTH;
    if (out_of_range(q, data, n))
        return QMTD_BAD_SYMBOL;

    size_t p = branches.of[0].at[0];
    copy_run(page, data, n);
    copy_run(page + n + p, data, k - p);
    copy_run(page + n, data + (k - p), p);
    add_rows(q, k, &branches, data, page + n);
    return QMTD_OK;
}

/* The page's checks are subtracted from the first row as it is written. */
static void work_out_syndrome(uint32_t q, size_t k, const struct branches *branches, const uint8_t *restrict page,
                              uint8_t *restrict syndrome)
{
    size_t p = branches->of[0].at[0];
    const uint8_t *checks = page + branches->count * k;
    write_difference(q, syndrome + p, page, checks + p, k - p);
    write_difference(q, syndrome, page + (k - p), checks, p);
    add_rows(q, k, branches, page, syndrome);
}

uint32_t CALL(syndrome)(uint32_t q, uint32_t k, uint32_t b, const uint8_t *table, uint64_t table_len,
                        const uint8_t *page, uint64_t page_len, uint8_t *syndrome, uint64_t syndrome_len)
{
    struct branches branches;
    uint32_t number = read_code(q, k, b, table, table_len, &branches);
    if (number != QMTD_OK)
        return number;
    if (page_len != ((size_t)b + 1) * k || syndrome_len != k)
        return QMTD_BAD_LENGTH;
    if (out_of_range(q, page, page_len))
        return QMTD_BAD_SYMBOL;

    work_out_syndrome(q, k, &branches, page, syndrome);
    return QMTD_OK;
}

/* ---- Votes ---- */

/* Counts the estimates; returns all counts, joined by or. */
static inline uint8_t count_votes(uint8_t difference, const uint8_t *checks, const ptrdiff_t *offsets, size_t n,
                                  uint8_t *votes)
{
    uint8_t counts = ++votes[difference];
    size_t a = 0;
    for (; a + 4 <= n; a += 4) {
        counts |= ++votes[checks[offsets[a]]];
        counts |= ++votes[checks[offsets[a + 1]]];
        counts |= ++votes[checks[offsets[a + 2]]];
        counts |= ++votes[checks[offsets[a + 3]]];
    }
    for (; a < n; a++)
        counts |= ++votes[checks[offsets[a]]];
    return counts;
}

/* The value that leads all others by more than the threshold, or 0 if none does; zero itself has `zeros` votes. Counts
 * start so that one reaches 128 where its value leads zero by more than the threshold; most votes end without. */
static inline uint8_t vote(uint8_t difference, const uint8_t *checks, const ptrdiff_t *offsets, size_t n,
                           uint32_t zeros, uint32_t threshold)
{
    uint8_t votes[256];
    uint32_t start = 127 - zeros - threshold;
    fill(votes, 256, (uint8_t)start);
    if (count_votes(difference, checks, offsets, n, votes) < 128)
        return 0;

    uint32_t first = votes[difference] * 256u + difference; /* the largest count, with its value in the low byte */
    for (size_t a = 0; a < n; a++) {
        uint32_t estimate = checks[offsets[a]], count = votes[estimate] * 256u + estimate;
        first = count > first ? count : first;
    }
    uint32_t lead = first / 256, next;
    uint8_t leader = (uint8_t)first;
    if (2 * (lead - start) > n + 1 + threshold) /* even if all other estimates were equal */
        return leader;

    votes[leader] = 0;
    next = votes[difference];
    for (size_t a = 0; a < n; a++) {
        uint32_t count = votes[checks[offsets[a]]];
        next = count > next ? count : next;
    }
    return lead > next + threshold ? leader : 0;
}

/* The largest count of a value other than 0, of which there is one; zero is counted from -128 on. */
static inline uint32_t most_other(uint8_t difference, const uint8_t *checks, const ptrdiff_t *offsets, size_t n)
{
    uint8_t votes[256];
    fill(votes, 256, 0);
    votes[0] = 128;
    int8_t most = (int8_t)++votes[difference];
    for (size_t a = 0; a < n; a++) {
        int8_t count = (int8_t)++votes[checks[offsets[a]]];
        most = count > most ? count : most;
    }
    return (uint32_t)most;
}

/* The same where two estimates are not 0: are they equal? */
static inline uint32_t most_of_two(uint8_t difference, const uint8_t *checks, const ptrdiff_t *offsets, size_t n)
{
    uint8_t unequal = difference;
    size_t a = 0;
    for (; a + 4 <= n; a += 4) {
        unequal ^= checks[offsets[a]];
        unequal ^= checks[offsets[a + 1]];
        unequal ^= checks[offsets[a + 2]];
        unequal ^= checks[offsets[a + 3]];
    }
    for (; a < n; a++)
        unequal ^= checks[offsets[a]];
    return unequal == 0 ? 2 : 1;
}

/* ---- Passes ---- */

/* The visits of one pass to one branch. Result and difference are the branch's, the zeros those of all. */
APART static void visit_branch(uint8_t q, size_t k, const struct branches *restrict branches, size_t branch,
                               uint32_t threshold, uint8_t *restrict result, uint8_t *restrict syndrome,
                               uint8_t *restrict difference, uint8_t *restrict all_zeros, struct tally *tally)
{
    const struct positions *positions = &branches->of[branch];
    uint8_t *zeros = zeros_of(all_zeros, k, branch);
    size_t n = positions->count, count = branches->count;
    uint32_t changes = 0, gained = 0;
    struct offsets offsets;
    start_offsets(positions, &offsets);

    /* Where zeros are this many, no value can lead them by more than the threshold. */
    uint32_t bound = n + 1 < threshold ? 0 : (uint32_t)(n + 2 - threshold) / 2;
    for (size_t from = past_blocks(zeros, k, 0, bound); from < k; from = past_blocks(zeros, k, from + 8, bound))
        for (uint64_t open = below(zeros, k, from, bound), later; open != 0;) {
            size_t j = from + first_of(open);
            uint8_t *checks = syndrome + j;
            move_offsets(k, positions, j, &offsets);
            uint8_t h = vote(difference[j], checks, offsets.at, n, zeros_at(zeros, k, j), threshold);
            later = ~(open ^ (open - 1));
            open &= later;
            if (h == 0)
                continue;

            changes++;
            result[j] = subtract(q, result[j], h);
            uint8_t own = subtract(q, difference[j], h);
            int change = (own == 0) - (difference[j] == 0);
            difference[j] = own;
            zeros[k + j] += (uint8_t)change;
            gained += (uint32_t)change;
            for (size_t a = 0; a < n; a++) {
                uint8_t *check = checks + offsets.at[a], symbol = subtract(q, *check, h);
                change = (symbol == 0) - (*check == 0);
                *check = symbol;
                gained += (uint32_t)change;
                if (change != 0)
                    for (size_t r = 0; r < count; r++)
                        recount(zeros_of(all_zeros, k, r) + (check - syndrome), branches->of[r].back, n,
                                (uint8_t)change);
            }
            open = below(zeros, k, from, bound) & later;
        }
    tally->changes += changes;
    tally->distance -= gained;
}

static void pass(uint8_t q, size_t k, const struct branches *branches, uint32_t threshold, uint8_t *result,
                 uint8_t *syndrome, uint8_t *difference, uint8_t *zeros, struct tally *tally)
{
    for (size_t r = 0; r < branches->count; r++)
        visit_branch(q, k, branches, r, threshold, result + r * k, syndrome, difference + r * k, zeros, tally);
}

/* ---- Margins ---- */

/* The margins of a branch: all in a straight run, then again those of symbols with two estimates or more that are not
 * 0. */
static void write_margins(size_t k, const struct positions *restrict positions, const uint8_t *restrict syndrome,
                          const uint8_t *restrict difference, const uint8_t *restrict zeros, uint8_t *restrict margins)
{
    size_t n = positions->count;
    uint32_t one = (uint32_t)n, two = one - 1; /* the zeros where one estimate is not 0, or two */
    write_margins_of_zeros(margins, zeros, k, (uint32_t)n + 1);

    struct offsets offsets;
    start_offsets(positions, &offsets);
    for (size_t from = past_blocks(zeros, k, 0, one); from < k; from = past_blocks(zeros, k, from + 8, one))
        for (uint64_t left = below(zeros, k, from, one); left != 0; left &= left - 1) {
            size_t j = from + first_of(left);
            const uint8_t *checks = syndrome + j;
            uint32_t count = zeros_at(zeros, k, j);
            move_offsets(k, positions, j, &offsets);
            put_number(margins, j, count - (count == two ? most_of_two(difference[j], checks, offsets.at, n)
                                                         : most_other(difference[j], checks, offsets.at, n)));
        }
}

uint32_t CALL(decode)(uint32_t q, uint32_t k, uint32_t b, const uint8_t *table, uint64_t table_len,
                      const uint8_t *page, uint64_t page_len, const uint8_t *thresholds, uint64_t thresholds_len,
                      uint8_t *result, uint64_t result_len, uint8_t *syndrome, uint64_t syndrome_len,
                      uint8_t *difference, uint64_t difference_len, uint8_t *margins, uint64_t margins_len,
                      uint8_t *counts, uint64_t counts_len)
{
    struct branches branches;
    uint32_t number = read_code(q, k, b, table, table_len, &branches);
    if (number != QMTD_OK)
        return number;
    size_t n = (size_t)b * k;
    if (page_len != n + k || result_len != n || syndrome_len != k || difference_len != n || margins_len != 4 * n ||
        counts_len != QMTD_COUNTS_LEN)
        return QMTD_BAD_LENGTH;
    if (out_of_range(q, page, page_len))
        return QMTD_BAD_SYMBOL;
    if (thresholds_len < QMTD_MIN_THRESHOLDS || thresholds_len > QMTD_MAX_THRESHOLDS)
        return QMTD_BAD_THRESHOLD_COUNT;
    if (out_of_range(QMTD_MAX_THRESHOLD + 1, thresholds, thresholds_len))
        return QMTD_BAD_THRESHOLD;

    copy_run(result, page, n);
    memset(difference, 0, n);
    work_out_syndrome(q, k, &branches, page, syndrome);

    /* A pass is run where its threshold is below the limit: that of the pass before it, if this was idle, else none. A
     * page at distance 0 needs no visits: no pass changes anything, and every estimate is 0. */
    uint32_t start = weight(syndrome, k), passes = 0, limit = QMTD_MAX_THRESHOLD + 1;
    struct tally tally = {0, start};
    if (start > 0) {
        uint8_t zeros[MAX_ZEROS];
        for (size_t r = 0; r < b; r++)
            start_zeros(k, &branches.of[r], syndrome, zeros_of(zeros, k, r));
        for (size_t i = 0; i < thresholds_len; i++) {
            uint32_t threshold = thresholds[i], before = tally.changes;
            if (threshold >= limit)
                continue;
            pass((uint8_t)q, k, &branches, threshold, result, syndrome, difference, zeros, &tally);
            passes++;
            limit = tally.changes == before ? threshold : QMTD_MAX_THRESHOLD + 1;
        }
        for (size_t r = 0; r < b; r++)
            write_margins(k, &branches.of[r], syndrome, difference + r * k, zeros_of(zeros, k, r),
                          margins + 4 * r * k);
    } else {
        for (size_t i = 0; i < thresholds_len; i++)
            if (thresholds[i] < limit) {
                limit = thresholds[i];
                passes++;
            }
        fill_margins(margins, n, (uint32_t)branches.of[0].count + 1);
    }

    put_number(counts, 0, passes);
    put_number(counts, 1, tally.changes);
    put_number(counts, 2, start);
    put_number(counts, 3, tally.distance);
    return QMTD_OK;
}
