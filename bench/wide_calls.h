/* wide_calls.h - the types of the four calls on wide symbols, as qmtd_wide.h declares them for either width, for the
 * yardsticks and the program that measures them. */
#ifndef WIDE_CALLS_H
#define WIDE_CALLS_H

#include "qmtd_wide.h"

typedef uint32_t wide_check_table_call(uint32_t k, uint32_t b, const uint8_t *table, uint64_t table_len);
typedef uint32_t wide_encode_call(uint32_t k, uint32_t b, const uint8_t *table, uint64_t table_len,
                                  const uint8_t *data, uint64_t data_len, uint8_t *page, uint64_t page_len);
typedef uint32_t wide_syndrome_call(uint32_t k, uint32_t b, const uint8_t *table, uint64_t table_len,
                                    const uint8_t *page, uint64_t page_len, uint8_t *syndrome, uint64_t syndrome_len);
typedef uint32_t wide_decode_call(uint32_t k, uint32_t b, const uint8_t *table, uint64_t table_len,
                                  const uint8_t *page, uint64_t page_len,
                                  const uint8_t *thresholds, uint64_t thresholds_len,
                                  uint8_t *result, uint64_t result_len, uint8_t *syndrome, uint64_t syndrome_len,
                                  uint8_t *difference, uint64_t difference_len, uint8_t *margins, uint64_t margins_len,
                                  uint8_t *counts, uint64_t counts_len);

#endif
