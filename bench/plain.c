/* plain.c - the four calls in plain C, straight from the steps of documents 01 and 02, as one would first write them;
 * with BITS those on bit pages.
 *
 * CALL(name) makes the names, plain_encode and so on; another prefix keeps the objects of two compilers apart. */
#include "calls.h"

#include <string.h>

#ifndef CALL
#define CALL(name) plain_##name
#endif

#ifdef BITS
enum { MIN_Q = 2, MAX_Q = 2 };
#else
enum { MIN_Q = QMTD_MIN_Q, MAX_Q = QMTD_MAX_Q };
#endif

check_table_call CALL(check_table);
encode_call CALL(encode);
syndrome_call CALL(syndrome);
decode_call CALL(decode);

static uint32_t position(const uint8_t *table, size_t a)
{
    return table[2 * a] | (uint32_t)table[2 * a + 1] << 8;
}

/* The run of branch r: its j positions. */
static const uint8_t *run_of(const uint8_t *table, size_t j, uint32_t r)
{
    return table + 2 * j * r;
}

uint32_t CALL(check_table)(uint32_t q, uint32_t k, uint32_t b, const uint8_t *table, uint64_t table_len)
{
    if (q < MIN_Q || q > MAX_Q)
        return QMTD_BAD_Q;
    if (k < QMTD_MIN_K || k > QMTD_MAX_K)
        return QMTD_BAD_K;
    if (b < QMTD_MIN_B || b > QMTD_MAX_B || b * k > QMTD_MAX_DATA)
        return QMTD_BAD_BRANCHES;
    uint64_t j = table_len / 2 / b;
    if (table_len % 2 != 0 || table_len / 2 % b != 0 || j < QMTD_MIN_J || j > QMTD_MAX_J)
        return QMTD_BAD_J;
    for (uint32_t r = 0; r < b; r++) {
        const uint8_t *run = run_of(table, j, r);
        for (size_t a = 0; a < j; a++)
            if (position(run, a) >= k || (a > 0 && position(run, a) <= position(run, a - 1)))
                return QMTD_BAD_POSITION;
    }

    /* The differences of all ordered pairs of positions of a run, for all runs; each compared with all that follow. */
    uint16_t differences[QMTD_MAX_B * QMTD_MAX_J * (QMTD_MAX_J - 1)];
    size_t n = 0;
    for (uint32_t r = 0; r < b; r++) {
        const uint8_t *run = run_of(table, j, r);
        for (size_t a = 0; a < j; a++)
            for (size_t c = 0; c < j; c++)
                if (a != c)
                    differences[n++] = (uint16_t)((position(run, a) + k - position(run, c)) % k);
    }
    for (size_t a = 0; a < n; a++)
        for (size_t c = a + 1; c < n; c++)
            if (differences[a] == differences[c])
                return QMTD_NOT_SELF_ORTHOGONAL;
    return QMTD_OK;
}

static int all_below(uint32_t q, const uint8_t *symbols, size_t n)
{
    for (size_t i = 0; i < n; i++)
        if (symbols[i] >= q)
            return 0;
    return 1;
}

/* The sum of the data symbols of all branches in check i. */
static uint32_t check_sum(uint32_t q, uint32_t k, uint32_t b, const uint8_t *table, size_t j, const uint8_t *data,
                          uint32_t i)
{
    uint32_t sum = 0;
    for (uint32_t r = 0; r < b; r++) {
        const uint8_t *run = run_of(table, j, r);
        for (size_t a = 0; a < j; a++)
            sum += data[r * k + (i + k - position(run, a)) % k];
    }
    return sum % q;
}

uint32_t CALL(encode)(uint32_t q, uint32_t k, uint32_t b, const uint8_t *table, uint64_t table_len,
                      const uint8_t *data, uint64_t data_len, uint8_t *page, uint64_t page_len)
{
    uint32_t number = CALL(check_table)(q, k, b, table, table_len);
    if (number != QMTD_OK)
        return number;
    uint32_t n = b * k;
    if (data_len != n || page_len != n + k)
        return QMTD_BAD_LENGTH;
    if (!all_below(q, data, n))
        return QMTD_BAD_SYMBOL;

    for (uint32_t i = 0; i < n; i++)
        page[i] = data[i];
    for (uint32_t i = 0; i < k; i++)
        page[n + i] = (uint8_t)check_sum(q, k, b, table, table_len / 2 / b, data, i);
    return QMTD_OK;
}

static void work_out_syndrome(uint32_t q, uint32_t k, uint32_t b, const uint8_t *table, size_t j, const uint8_t *page,
                              uint8_t *syndrome)
{
    for (uint32_t i = 0; i < k; i++)
        syndrome[i] = (uint8_t)((check_sum(q, k, b, table, j, page, i) + q - page[b * k + i]) % q);
}

uint32_t CALL(syndrome)(uint32_t q, uint32_t k, uint32_t b, const uint8_t *table, uint64_t table_len,
                        const uint8_t *page, uint64_t page_len, uint8_t *syndrome, uint64_t syndrome_len)
{
    uint32_t number = CALL(check_table)(q, k, b, table, table_len);
    if (number != QMTD_OK)
        return number;
    if (page_len != (b + 1) * k || syndrome_len != k)
        return QMTD_BAD_LENGTH;
    if (!all_below(q, page, page_len))
        return QMTD_BAD_SYMBOL;

    work_out_syndrome(q, k, b, table, table_len / 2 / b, page, syndrome);
    return QMTD_OK;
}

static uint32_t nonzero(const uint8_t *symbols, uint32_t n)
{
    uint32_t count = 0;
    for (uint32_t i = 0; i < n; i++)
        if (symbols[i] != 0)
            count++;
    return count;
}

/* How often a value is among the estimates. */
static uint32_t votes(const uint8_t *estimates, size_t n, uint8_t value)
{
    uint32_t count = 0;
    for (size_t a = 0; a < n; a++)
        if (estimates[a] == value)
            count++;
    return count;
}

/* The J + 1 estimates of a data symbol of a branch, by the branch's run and its part of the difference. */
static void collect(uint32_t k, const uint8_t *run, size_t j, uint32_t symbol, const uint8_t *syndrome,
                    const uint8_t *difference, uint8_t *estimates)
{
    estimates[0] = difference[symbol];
    for (size_t a = 0; a < j; a++)
        estimates[a + 1] = syndrome[(symbol + position(run, a)) % k];
}

/* The largest count of a value other than the one given, 0 if there is none. */
static uint32_t most_of_others(const uint8_t *estimates, size_t n, uint8_t value)
{
    uint32_t most = 0;
    for (size_t a = 0; a < n; a++)
        if (estimates[a] != value) {
            uint32_t count = votes(estimates, n, estimates[a]);
            if (count > most)
                most = count;
        }
    return most;
}

/* Visits one data symbol of a branch; result and difference are the branch's. Was it a change? */
static int visit(uint32_t q, uint32_t k, const uint8_t *run, size_t j, uint32_t symbol, uint32_t threshold,
                 uint8_t *result, uint8_t *syndrome, uint8_t *difference)
{
    uint8_t estimates[QMTD_MAX_J + 1];
    collect(k, run, j, symbol, syndrome, difference, estimates);

    uint8_t leader = 0;
    uint32_t lead = 0;
    for (size_t a = 0; a < j + 1; a++) {
        uint32_t count = votes(estimates, j + 1, estimates[a]);
        if (count > lead) {
            lead = count;
            leader = estimates[a];
        }
    }
    if (lead - most_of_others(estimates, j + 1, leader) <= threshold || leader == 0)
        return 0;
    result[symbol] = (uint8_t)((result[symbol] + q - leader) % q);
    difference[symbol] = (uint8_t)((difference[symbol] + q - leader) % q);
    for (size_t a = 0; a < j; a++) {
        uint8_t *s = &syndrome[(symbol + position(run, a)) % k];
        *s = (uint8_t)((*s + q - leader) % q);
    }
    return 1;
}

static void write_number(uint8_t *bytes, uint32_t number)
{
    for (int i = 0; i < 4; i++)
        bytes[i] = (uint8_t)(number >> 8 * i);
}

uint32_t CALL(decode)(uint32_t q, uint32_t k, uint32_t b, const uint8_t *table, uint64_t table_len,
                      const uint8_t *page, uint64_t page_len, const uint8_t *thresholds, uint64_t thresholds_len,
                      uint8_t *result, uint64_t result_len, uint8_t *syndrome, uint64_t syndrome_len,
                      uint8_t *difference, uint64_t difference_len, uint8_t *margins, uint64_t margins_len,
                      uint8_t *counts, uint64_t counts_len)
{
    uint32_t number = CALL(check_table)(q, k, b, table, table_len);
    if (number != QMTD_OK)
        return number;
    uint32_t n = b * k;
    if (page_len != n + k || result_len != n || syndrome_len != k || difference_len != n || margins_len != 4 * n ||
        counts_len != QMTD_COUNTS_LEN)
        return QMTD_BAD_LENGTH;
    if (!all_below(q, page, page_len))
        return QMTD_BAD_SYMBOL;
    if (thresholds_len < QMTD_MIN_THRESHOLDS || thresholds_len > QMTD_MAX_THRESHOLDS)
        return QMTD_BAD_THRESHOLD_COUNT;
    if (!all_below(QMTD_MAX_THRESHOLD + 1, thresholds, thresholds_len))
        return QMTD_BAD_THRESHOLD;

    size_t j = table_len / 2 / b;
    memcpy(result, page, n);
    memset(difference, 0, n);
    work_out_syndrome(q, k, b, table, j, page, syndrome);
    uint32_t start = nonzero(syndrome, k);

    uint32_t passes = 0, changes = 0;
    size_t place = 0;
    while (place < thresholds_len) {
        uint32_t before = changes, threshold = thresholds[place];
        for (uint32_t r = 0; r < b; r++)
            for (uint32_t symbol = 0; symbol < k; symbol++)
                changes += (uint32_t)visit(q, k, run_of(table, j, r), j, symbol, threshold, result + r * k, syndrome,
                                           difference + r * k);
        passes++;
        place++;
        /* After an idle pass the first later one whose threshold is smaller. */
        if (changes == before)
            while (place < thresholds_len && thresholds[place] >= threshold)
                place++;
    }

    for (uint32_t r = 0; r < b; r++)
        for (uint32_t symbol = 0; symbol < k; symbol++) {
            uint8_t estimates[QMTD_MAX_J + 1];
            collect(k, run_of(table, j, r), j, symbol, syndrome, difference + r * k, estimates);
            write_number(margins + 4 * (r * k + symbol),
                         votes(estimates, j + 1, 0) - most_of_others(estimates, j + 1, 0));
        }
    write_number(counts, passes);
    write_number(counts + 4, changes);
    write_number(counts + 8, start);
    write_number(counts + 12, nonzero(syndrome, k) + nonzero(difference, n));
    return QMTD_OK;
}
