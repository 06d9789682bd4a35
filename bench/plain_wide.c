/* plain_wide.c - the four calls on symbols of WIDTH bytes, 2 or 4, in plain C: the symbols are unpacked, the steps of
 * documents 01 and 02 follow as one would first write them, and what was worked out is packed. Sums and differences wrap
 * by the symbol's type.
 *
 * CALL(name) makes the names, plain_u16_encode and so on. */
#include "wide_calls.h"

#include <string.h>

#if WIDTH == 2
typedef uint16_t symbol;
#define SYMBOL_AT qmtd_u16_symbol
#define PUT_SYMBOL qmtd_u16_put_symbol
#else
typedef uint32_t symbol;
#define SYMBOL_AT qmtd_u32_symbol
#define PUT_SYMBOL qmtd_u32_put_symbol
#endif

wide_check_table_call CALL(check_table);
wide_encode_call CALL(encode);
wide_syndrome_call CALL(syndrome);
wide_decode_call CALL(decode);

static uint32_t position(const uint8_t *table, size_t a)
{
    return table[2 * a] | (uint32_t)table[2 * a + 1] << 8;
}

/* The run of branch r: its j positions. */
static const uint8_t *run_of(const uint8_t *table, size_t j, uint32_t r)
{
    return table + 2 * j * r;
}

uint32_t CALL(check_table)(uint32_t k, uint32_t b, const uint8_t *table, uint64_t table_len)
{
    if (k < QMTD_MIN_K || k > QMTD_MAX_K)
        return QMTD_BAD_K;
    if (b < QMTD_MIN_B || b > QMTD_MAX_B || b * k > QMTD_MAX_DATA)
        return QMTD_BAD_BRANCHES;
    uint64_t j = table_len / 2 / b;
    if (table_len % 2 != 0 || table_len / 2 % b != 0 || j < QMTD_MIN_J || j > QMTD_MAX_J)
        return QMTD_BAD_J;
    for (uint32_t r = 0; r < b; r++) {
        const uint8_t *run = run_of(table, j, r);
        for (size_t a = 0; a < j; a++)
            if (position(run, a) >= k || (a > 0 && position(run, a) <= position(run, a - 1)))
                return QMTD_BAD_POSITION;
    }

    /* A flag for each difference of two positions of a run, for all runs. */
    uint8_t met[QMTD_MAX_K] = {0};
    for (uint32_t r = 0; r < b; r++) {
        const uint8_t *run = run_of(table, j, r);
        for (size_t a = 0; a < j; a++)
            for (size_t c = 0; c < j; c++)
                if (a != c && met[(position(run, a) + k - position(run, c)) % k]++)
                    return QMTD_NOT_SELF_ORTHOGONAL;
    }
    return QMTD_OK;
}

static void unpack(symbol *symbols, const uint8_t *bytes, uint32_t n)
{
    for (uint32_t i = 0; i < n; i++)
        symbols[i] = SYMBOL_AT(bytes, i);
}

static void pack(uint8_t *bytes, const symbol *symbols, uint32_t n)
{
    for (uint32_t i = 0; i < n; i++)
        PUT_SYMBOL(bytes, i, symbols[i]);
}

/* The sum of the data symbols of all branches in check i. */
static symbol check_sum(uint32_t k, uint32_t b, const uint8_t *table, size_t j, const symbol *data, uint32_t i)
{
    symbol sum = 0;
    for (uint32_t r = 0; r < b; r++) {
        const uint8_t *run = run_of(table, j, r);
        for (size_t a = 0; a < j; a++)
            sum = (symbol)(sum + data[r * k + (i + k - position(run, a)) % k]);
    }
    return sum;
}

uint32_t CALL(encode)(uint32_t k, uint32_t b, const uint8_t *table, uint64_t table_len,
                      const uint8_t *data, uint64_t data_len, uint8_t *page, uint64_t page_len)
{
    uint32_t number = CALL(check_table)(k, b, table, table_len);
    if (number != QMTD_OK)
        return number;
    uint32_t n = b * k;
    if (data_len != WIDTH * n || page_len != WIDTH * (n + k))
        return QMTD_BAD_LENGTH;

    symbol symbols[QMTD_MAX_DATA];
    unpack(symbols, data, n);
    memcpy(page, data, data_len);
    for (uint32_t i = 0; i < k; i++)
        PUT_SYMBOL(page, n + i, check_sum(k, b, table, table_len / 2 / b, symbols, i));
    return QMTD_OK;
}

/* The syndrome of a page whose data is unpacked. */
static void work_out_syndrome(uint32_t k, uint32_t b, const uint8_t *table, size_t j, const symbol *data,
                              const uint8_t *page, symbol *syndrome)
{
    for (uint32_t i = 0; i < k; i++)
        syndrome[i] = (symbol)(check_sum(k, b, table, j, data, i) - SYMBOL_AT(page, b * k + i));
}

uint32_t CALL(syndrome)(uint32_t k, uint32_t b, const uint8_t *table, uint64_t table_len,
                        const uint8_t *page, uint64_t page_len, uint8_t *syndrome, uint64_t syndrome_len)
{
    uint32_t number = CALL(check_table)(k, b, table, table_len);
    if (number != QMTD_OK)
        return number;
    if (page_len != WIDTH * (b + 1) * k || syndrome_len != WIDTH * k)
        return QMTD_BAD_LENGTH;

    symbol data[QMTD_MAX_DATA], s[QMTD_MAX_K];
    unpack(data, page, b * k);
    work_out_syndrome(k, b, table, table_len / 2 / b, data, page, s);
    pack(syndrome, s, k);
    return QMTD_OK;
}

static uint32_t nonzero(const symbol *symbols, uint32_t n)
{
    uint32_t count = 0;
    for (uint32_t i = 0; i < n; i++)
        if (symbols[i] != 0)
            count++;
    return count;
}

/* How often a value is among the estimates. */
static uint32_t votes(const symbol *estimates, size_t n, symbol value)
{
    uint32_t count = 0;
    for (size_t a = 0; a < n; a++)
        if (estimates[a] == value)
            count++;
    return count;
}

/* The J + 1 estimates of a data symbol of a branch, by the branch's run and its part of the difference. */
static void collect(uint32_t k, const uint8_t *run, size_t j, uint32_t i, const symbol *syndrome,
                    const symbol *difference, symbol *estimates)
{
    estimates[0] = difference[i];
    for (size_t a = 0; a < j; a++)
        estimates[a + 1] = syndrome[(i + position(run, a)) % k];
}

/* The largest count of a value other than the one given, 0 if there is none. */
static uint32_t most_of_others(const symbol *estimates, size_t n, symbol value)
{
    uint32_t most = 0;
    for (size_t a = 0; a < n; a++)
        if (estimates[a] != value) {
            uint32_t count = votes(estimates, n, estimates[a]);
            if (count > most)
                most = count;
        }
    return most;
}

/* Visits one data symbol of a branch; result and difference are the branch's. Was it a change? */
static int visit(uint32_t k, const uint8_t *run, size_t j, uint32_t i, uint32_t threshold, symbol *result,
                 symbol *syndrome, symbol *difference)
{
    symbol estimates[QMTD_MAX_J + 1], leader = 0;
    uint32_t lead = 0;
    collect(k, run, j, i, syndrome, difference, estimates);
    for (size_t a = 0; a < j + 1; a++) {
        uint32_t count = votes(estimates, j + 1, estimates[a]);
        if (count > lead) {
            lead = count;
            leader = estimates[a];
        }
    }
    if (lead - most_of_others(estimates, j + 1, leader) <= threshold || leader == 0)
        return 0;
    result[i] = (symbol)(result[i] - leader);
    difference[i] = (symbol)(difference[i] - leader);
    for (size_t a = 0; a < j; a++) {
        symbol *s = &syndrome[(i + position(run, a)) % k];
        *s = (symbol)(*s - leader);
    }
    return 1;
}

uint32_t CALL(decode)(uint32_t k, uint32_t b, const uint8_t *table, uint64_t table_len,
                      const uint8_t *page, uint64_t page_len, const uint8_t *thresholds, uint64_t thresholds_len,
                      uint8_t *result, uint64_t result_len, uint8_t *syndrome, uint64_t syndrome_len,
                      uint8_t *difference, uint64_t difference_len, uint8_t *margins, uint64_t margins_len,
                      uint8_t *counts, uint64_t counts_len)
{
    uint32_t number = CALL(check_table)(k, b, table, table_len);
    if (number != QMTD_OK)
        return number;
    uint32_t n = b * k;
    if (page_len != WIDTH * (n + k) || result_len != WIDTH * n || syndrome_len != WIDTH * k ||
        difference_len != WIDTH * n || margins_len != 4 * n || counts_len != QMTD_COUNTS_LEN)
        return QMTD_BAD_LENGTH;
    if (thresholds_len < QMTD_MIN_THRESHOLDS || thresholds_len > QMTD_MAX_THRESHOLDS)
        return QMTD_BAD_THRESHOLD_COUNT;
    for (size_t i = 0; i < thresholds_len; i++)
        if (thresholds[i] > QMTD_MAX_THRESHOLD)
            return QMTD_BAD_THRESHOLD;

    size_t j = table_len / 2 / b;
    symbol r[QMTD_MAX_DATA], s[QMTD_MAX_K], d[QMTD_MAX_DATA];
    unpack(r, page, n);
    memset(d, 0, WIDTH * n);
    work_out_syndrome(k, b, table, j, r, page, s);
    uint32_t start = nonzero(s, k);

    uint32_t passes = 0, changes = 0;
    size_t place = 0;
    while (place < thresholds_len) {
        uint32_t before = changes, threshold = thresholds[place];
        for (uint32_t branch = 0; branch < b; branch++)
            for (uint32_t i = 0; i < k; i++)
                changes += (uint32_t)visit(k, run_of(table, j, branch), j, i, threshold, r + branch * k, s,
                                           d + branch * k);
        passes++;
        place++;
        /* After an idle pass the first later one whose threshold is smaller. */
        if (changes == before)
            while (place < thresholds_len && thresholds[place] >= threshold)
                place++;
    }

    for (uint32_t branch = 0; branch < b; branch++)
        for (uint32_t i = 0; i < k; i++) {
            symbol estimates[QMTD_MAX_J + 1];
            collect(k, run_of(table, j, branch), j, i, s, d + branch * k, estimates);
            qmtd_u32_put_symbol(margins, branch * k + i,
                                votes(estimates, j + 1, 0) - most_of_others(estimates, j + 1, 0));
        }
    pack(result, r, n);
    pack(syndrome, s, k);
    pack(difference, d, n);
    const uint32_t all[] = {passes, changes, start, nonzero(s, k) + nonzero(d, n)};
    for (size_t i = 0; i < 4; i++)
        qmtd_u32_put_symbol(counts, i, all[i]);
    return QMTD_OK;
}
