/* qmtd_bits.h - pages of single bits: the calls of qmtd.h in a profile of their own, where q is 2.
 *
 * A symbol is one byte that holds 0 or 1. Each call has the parameters, lengths and answers of the call of its name in
 * qmtd.h and is promised all that is said there, the bound for recovery and the falling distance among it, but for
 * these:
 *   - q is 2. QMTD_BAD_Q (1) refuses every other q; the calls of qmtd.h refuse q = 2.
 *   - QMTD_BAD_SYMBOL (7) refuses a symbol above 1.
 *   - Sums and differences are taken modulo 2: a change turns a bit over.
 *   - A vote counts ones. The J + 1 estimates of a data symbol are gathered in one machine word, and a visit is a change
 *     when ones minus zeros is above the threshold. This is the vote of qmtd.h at q = 2.
 * There are no counters and no outer check on bits. The archive's object for these calls is linked where one of them is
 * made; qmtd_version, the macros and qmtd_margin are those of qmtd.h, and so are the rules for all calls.
 */
#ifndef QMTD_BITS_H
#define QMTD_BITS_H

#include "qmtd.h"

#ifdef __cplusplus
extern "C" {
#endif

#define QMTD_BITS_Q 2 /* the one alphabet size that these calls take */

/* Checks a code table: as qmtd_check_table, but 1 where q is not 2. A table that one of the two takes the other takes
 * too, with its own q. */
QMTD_MUST_USE
uint32_t qmtd_bits_check_table(uint32_t q, uint32_t k, uint32_t b, const uint8_t *table, uint64_t table_len);

/* Encodes data into a page: as qmtd_encode, but 1 where q is not 2. A check symbol is 1 where the number of ones among
 * the data symbols of its check is odd. */
QMTD_MUST_USE
uint32_t qmtd_bits_encode(uint32_t q, uint32_t k, uint32_t b, const uint8_t *table, uint64_t table_len,
                          const uint8_t *data, uint64_t data_len,
                          uint8_t *page, uint64_t page_len);

/* Works out the syndrome of a received page: as qmtd_syndrome, but 1 where q is not 2. Symbol i is 1 exactly where check
 * i does not fit the received data. */
QMTD_MUST_USE
uint32_t qmtd_bits_syndrome(uint32_t q, uint32_t k, uint32_t b, const uint8_t *table, uint64_t table_len,
                            const uint8_t *page, uint64_t page_len,
                            uint8_t *syndrome, uint64_t syndrome_len);

/* Decodes a received page: as qmtd_decode, but 1 where q is not 2. A margin is zeros minus ones among the J + 1
 * estimates, so that it and J + 1 are both even or both odd; a visit with threshold T would change the symbol exactly
 * where the margin is below -T. */
QMTD_MUST_USE
uint32_t qmtd_bits_decode(uint32_t q, uint32_t k, uint32_t b, const uint8_t *table, uint64_t table_len,
                          const uint8_t *page, uint64_t page_len,
                          const uint8_t *thresholds, uint64_t thresholds_len,
                          uint8_t *result, uint64_t result_len,
                          uint8_t *syndrome, uint64_t syndrome_len,
                          uint8_t *difference, uint64_t difference_len,
                          uint8_t *margins, uint64_t margins_len,
                          uint8_t *counts, uint64_t counts_len);

/* Opens a received page, for qmtd_bits_pass to work on: as qmtd_open, but 1 where q is not 2. */
QMTD_MUST_USE
uint32_t qmtd_bits_open(uint32_t q, uint32_t k, uint32_t b, const uint8_t *table, uint64_t table_len,
                        const uint8_t *page, uint64_t page_len,
                        uint8_t *result, uint64_t result_len,
                        uint8_t *syndrome, uint64_t syndrome_len,
                        uint8_t *difference, uint64_t difference_len);

/* Makes one pass with one threshold: as qmtd_pass, but 1 where q is not 2. What is promised of an opened page is
 * promised of one that qmtd_bits_open opened. */
QMTD_MUST_USE
uint32_t qmtd_bits_pass(uint32_t q, uint32_t k, uint32_t b, const uint8_t *table, uint64_t table_len,
                        uint32_t threshold,
                        uint8_t *result, uint64_t result_len,
                        uint8_t *syndrome, uint64_t syndrome_len,
                        uint8_t *difference, uint64_t difference_len,
                        uint8_t *changes, uint64_t changes_len);

/* Tells by which ground a visit to one data symbol would act now: as qmtd_explain, but 1 where q is not 2. h0 is 1 where
 * the ones among the J + 1 estimates are more than the zeros, else 0, in a tie too; m0 is the larger of the two counts
 * and m1 the other. */
QMTD_MUST_USE
uint32_t qmtd_bits_explain(uint32_t q, uint32_t k, uint32_t b, const uint8_t *table, uint64_t table_len,
                           uint32_t threshold, uint32_t symbol,
                           const uint8_t *result, uint64_t result_len,
                           const uint8_t *syndrome, uint64_t syndrome_len,
                           const uint8_t *difference, uint64_t difference_len,
                           uint8_t *answer, uint64_t answer_len);

#ifdef __cplusplus
}
#endif

#endif /* QMTD_BITS_H */
