/* calls.h - the types of the four calls, as qmtd.h declares them, for the yardsticks and the program that measures them. */
#ifndef CALLS_H
#define CALLS_H

#include "qmtd.h"

typedef uint32_t check_table_call(uint32_t q, uint32_t k, uint32_t b, const uint8_t *table, uint64_t table_len);
typedef uint32_t encode_call(uint32_t q, uint32_t k, uint32_t b, const uint8_t *table, uint64_t table_len,
                             const uint8_t *data, uint64_t data_len, uint8_t *page, uint64_t page_len);
typedef uint32_t syndrome_call(uint32_t q, uint32_t k, uint32_t b, const uint8_t *table, uint64_t table_len,
                               const uint8_t *page, uint64_t page_len, uint8_t *syndrome, uint64_t syndrome_len);
typedef uint32_t decode_call(uint32_t q, uint32_t k, uint32_t b, const uint8_t *table, uint64_t table_len,
                             const uint8_t *page, uint64_t page_len, const uint8_t *thresholds, uint64_t thresholds_len,
                             uint8_t *result, uint64_t result_len, uint8_t *syndrome, uint64_t syndrome_len,
                             uint8_t *difference, uint64_t difference_len, uint8_t *margins, uint64_t margins_len,
                             uint8_t *counts, uint64_t counts_len);

#endif
