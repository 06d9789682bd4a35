/* qmtd_wide.h - pages of whole readings: the calls of qmtd.h on symbols of two bytes, qmtd_u16_.., and of four bytes,
 * qmtd_u32_..
 *
 * A symbol is a number from 0 to q - 1, with q = 65,536 or q = 4,294,967,296: every number of two or four bytes is one,
 * and sums and differences wrap at the symbol's width. Below w is that width, 2 or 4. Each call has the parameters,
 * lengths and answers of the call of its name in qmtd.h and is promised all that is said there, the bound for recovery
 * and the falling distance among it, but for these:
 *   - No call takes q, since each set of calls has its own. The parameters start with k, b, table and table_len.
 *   - Data, pages, results, syndromes and differences are byte strings of w bytes a symbol, low byte first, on every
 *     processor. All lengths are in bytes. QMTD_BAD_LENGTH (6) refuses every one that is not exactly w times the number
 *     of symbols that the call needs, one that ends within a symbol among them.
 *   - Everything else has the bytes that it has in qmtd.h: a position of the table 2, a threshold 1, a margin 4, the
 *     counts 16, the changes of a pass 4, the answer of an explanation 24.
 *   - QMTD_BAD_Q (1) and QMTD_BAD_SYMBOL (7) cannot occur. Tested are 2, 10, 3, 4, 5, 6, 8, 9 and 11, in this order.
 *   - A call works on copies of the symbols, which it unpacks on the stack: see QMTD_WIDE_STACK.
 * There are no counters and no outer check on these symbols. No pointer needs any alignment. The archive has an object
 * for each width, which is linked where one of its calls is made; qmtd_version, the other macros, qmtd_number and
 * qmtd_margin are those of qmtd.h, and so are the rules for all calls.
 */
#ifndef QMTD_WIDE_H
#define QMTD_WIDE_H

#include "qmtd.h"

#ifdef __cplusplus
extern "C" {
#endif

/* ---- Widths and lengths, in bytes ---- */

#define QMTD_U16_WIDTH 2 /* a symbol of qmtd_u16_.. */
#define QMTD_U32_WIDTH 4 /* a symbol of qmtd_u32_.. */

#define QMTD_WIDE_DATA_LEN(w, k, b) ((w) * QMTD_DATA_LEN(k, b)) /* data, result and difference */
#define QMTD_WIDE_PAGE_LEN(w, k, b) ((w) * QMTD_PAGE_LEN(k, b)) /* a page */
#define QMTD_WIDE_SYNDROME_LEN(w, k) ((w) * (k))                /* a syndrome */

/* ---- The stack ---- */

/* The stack to allow for a call with symbols of w bytes on a code of k and b, in place of the 9 KiB of qmtd.h: a
 * constant where w, k and b are. Decode and pass unpack result, syndrome and difference, keep two bytes more for each
 * data symbol, and have arrays for 128, 1,024 or 4,096 of them, the fewest that b * k fits; no other call takes more.
 * So it is from 5 KiB, with two bytes and b * k up to 128, to 60 KiB, with four bytes and b * k above 1,024. The tests
 * measure what each call uses with each of the three. */
#define QMTD_WIDE_STACK(w, k, b) ((3 * (w) + 2) * QMTD_WIDE_TIER((b) * (k)) + QMTD_WIDE_STACK_FIXED)
#define QMTD_WIDE_TIER(n) ((n) <= 128 ? 128 : (n) <= 1024 ? 1024 : 4096) /* the data symbols of the arrays for n */
#define QMTD_WIDE_STACK_FIXED 4096                                       /* what does not hang on w, k and b */

/* ---- The bytes of symbols. C of this header: none of it is in the archive. ---- */

/* Symbol j of a string of symbols, and the same symbol written: two bytes, low byte first. */
static inline uint16_t qmtd_u16_symbol(const uint8_t *symbols, uint64_t j)
{
    const uint8_t *bytes = symbols + QMTD_U16_WIDTH * j;
    return (uint16_t)(bytes[0] | bytes[1] << 8);
}

static inline void qmtd_u16_put_symbol(uint8_t *symbols, uint64_t j, uint16_t symbol)
{
    uint8_t *bytes = symbols + QMTD_U16_WIDTH * j;
    bytes[0] = (uint8_t)symbol;
    bytes[1] = (uint8_t)(symbol >> 8);
}

/* The same with four bytes. */
static inline uint32_t qmtd_u32_symbol(const uint8_t *symbols, uint64_t j)
{
    return qmtd_number(symbols + QMTD_U32_WIDTH * j);
}

static inline void qmtd_u32_put_symbol(uint8_t *symbols, uint64_t j, uint32_t symbol)
{
    uint8_t *bytes = symbols + QMTD_U32_WIDTH * j;
    bytes[0] = (uint8_t)symbol;
    bytes[1] = (uint8_t)(symbol >> 8);
    bytes[2] = (uint8_t)(symbol >> 16);
    bytes[3] = (uint8_t)(symbol >> 24);
}

/* ---- Calls ---- */

/* Checks a code table: as qmtd_check_table, but there is no q. All three take the same tables.
 * Returns QMTD_OK, or 2, 10, 3, 4 or 5. */
QMTD_MUST_USE
uint32_t qmtd_u16_check_table(uint32_t k, uint32_t b, const uint8_t *table, uint64_t table_len);
QMTD_MUST_USE
uint32_t qmtd_u32_check_table(uint32_t k, uint32_t b, const uint8_t *table, uint64_t table_len);

/* Encodes data into a page: as qmtd_encode, but symbols have w bytes.
 *   data        read: w * b * k bytes
 *   page        written whole: w * (b + 1) * k bytes
 * Returns QMTD_OK, or 2 to 6 or 10; refused, page is left as it was. */
QMTD_MUST_USE
uint32_t qmtd_u16_encode(uint32_t k, uint32_t b, const uint8_t *table, uint64_t table_len,
                         const uint8_t *data, uint64_t data_len,
                         uint8_t *page, uint64_t page_len);
QMTD_MUST_USE
uint32_t qmtd_u32_encode(uint32_t k, uint32_t b, const uint8_t *table, uint64_t table_len,
                         const uint8_t *data, uint64_t data_len,
                         uint8_t *page, uint64_t page_len);

/* Works out the syndrome of a received page: as qmtd_syndrome, but symbols have w bytes.
 *   page        read: w * (b + 1) * k bytes
 *   syndrome    written whole: w * k bytes
 * Returns QMTD_OK, or 2 to 6 or 10; refused, syndrome is left as it was. */
QMTD_MUST_USE
uint32_t qmtd_u16_syndrome(uint32_t k, uint32_t b, const uint8_t *table, uint64_t table_len,
                           const uint8_t *page, uint64_t page_len,
                           uint8_t *syndrome, uint64_t syndrome_len);
QMTD_MUST_USE
uint32_t qmtd_u32_syndrome(uint32_t k, uint32_t b, const uint8_t *table, uint64_t table_len,
                           const uint8_t *page, uint64_t page_len,
                           uint8_t *syndrome, uint64_t syndrome_len);

/* Decodes a received page: as qmtd_decode, but symbols have w bytes.
 *   page        read: w * (b + 1) * k bytes
 *   thresholds  read: 1 to 64 bytes, a threshold each
 *   result      written whole: w * b * k bytes
 *   syndrome    written whole: w * k bytes
 *   difference  written whole: w * b * k bytes
 *   margins     written whole: 4 * b * k bytes, whatever w is (qmtd_margin)
 *   counts      written whole: 16 bytes
 * Returns QMTD_OK, or 2 to 6 or 8 to 10; refused, result, syndrome, difference, margins and counts are left as they
 * were. */
QMTD_MUST_USE
uint32_t qmtd_u16_decode(uint32_t k, uint32_t b, const uint8_t *table, uint64_t table_len,
                         const uint8_t *page, uint64_t page_len,
                         const uint8_t *thresholds, uint64_t thresholds_len,
                         uint8_t *result, uint64_t result_len,
                         uint8_t *syndrome, uint64_t syndrome_len,
                         uint8_t *difference, uint64_t difference_len,
                         uint8_t *margins, uint64_t margins_len,
                         uint8_t *counts, uint64_t counts_len);
QMTD_MUST_USE
uint32_t qmtd_u32_decode(uint32_t k, uint32_t b, const uint8_t *table, uint64_t table_len,
                         const uint8_t *page, uint64_t page_len,
                         const uint8_t *thresholds, uint64_t thresholds_len,
                         uint8_t *result, uint64_t result_len,
                         uint8_t *syndrome, uint64_t syndrome_len,
                         uint8_t *difference, uint64_t difference_len,
                         uint8_t *margins, uint64_t margins_len,
                         uint8_t *counts, uint64_t counts_len);

/* Opens a received page, for the pass of the same width to work on: as qmtd_open, but symbols have w bytes.
 *   page        read: w * (b + 1) * k bytes
 *   result      written whole: w * b * k bytes
 *   syndrome    written whole: w * k bytes
 *   difference  written whole: w * b * k bytes, all 0
 * Returns QMTD_OK, or 2 to 6 or 10; refused, result, syndrome and difference are left as they were. */
QMTD_MUST_USE
uint32_t qmtd_u16_open(uint32_t k, uint32_t b, const uint8_t *table, uint64_t table_len,
                       const uint8_t *page, uint64_t page_len,
                       uint8_t *result, uint64_t result_len,
                       uint8_t *syndrome, uint64_t syndrome_len,
                       uint8_t *difference, uint64_t difference_len);
QMTD_MUST_USE
uint32_t qmtd_u32_open(uint32_t k, uint32_t b, const uint8_t *table, uint64_t table_len,
                       const uint8_t *page, uint64_t page_len,
                       uint8_t *result, uint64_t result_len,
                       uint8_t *syndrome, uint64_t syndrome_len,
                       uint8_t *difference, uint64_t difference_len);

/* Makes one pass with one threshold: as qmtd_pass, but symbols have w bytes. What is promised of an opened page is
 * promised of one that the opening of the same width opened.
 *   result      read and written: w * b * k bytes
 *   syndrome    read and written: w * k bytes
 *   difference  read and written: w * b * k bytes
 *   changes     written whole: 4 bytes
 * Returns QMTD_OK, or 2 to 6, 9 or 10; refused, result, syndrome, difference and changes are left as they were. */
QMTD_MUST_USE
uint32_t qmtd_u16_pass(uint32_t k, uint32_t b, const uint8_t *table, uint64_t table_len,
                       uint32_t threshold,
                       uint8_t *result, uint64_t result_len,
                       uint8_t *syndrome, uint64_t syndrome_len,
                       uint8_t *difference, uint64_t difference_len,
                       uint8_t *changes, uint64_t changes_len);
QMTD_MUST_USE
uint32_t qmtd_u32_pass(uint32_t k, uint32_t b, const uint8_t *table, uint64_t table_len,
                       uint32_t threshold,
                       uint8_t *result, uint64_t result_len,
                       uint8_t *syndrome, uint64_t syndrome_len,
                       uint8_t *difference, uint64_t difference_len,
                       uint8_t *changes, uint64_t changes_len);

/* Tells by which ground a visit to one data symbol would act now: as qmtd_explain, but symbols have w bytes, and h0 may
 * be any number of w bytes.
 *   result      read: w * b * k bytes
 *   syndrome    read: w * k bytes
 *   difference  read: w * b * k bytes
 *   answer      written whole: 24 bytes, four numbers of 4 bytes and one of 8, whatever w is
 * Returns QMTD_OK, or 2 to 6 or 9 to 11; refused, answer is left as it was. */
QMTD_MUST_USE
uint32_t qmtd_u16_explain(uint32_t k, uint32_t b, const uint8_t *table, uint64_t table_len,
                          uint32_t threshold, uint32_t symbol,
                          const uint8_t *result, uint64_t result_len,
                          const uint8_t *syndrome, uint64_t syndrome_len,
                          const uint8_t *difference, uint64_t difference_len,
                          uint8_t *answer, uint64_t answer_len);
QMTD_MUST_USE
uint32_t qmtd_u32_explain(uint32_t k, uint32_t b, const uint8_t *table, uint64_t table_len,
                          uint32_t threshold, uint32_t symbol,
                          const uint8_t *result, uint64_t result_len,
                          const uint8_t *syndrome, uint64_t syndrome_len,
                          const uint8_t *difference, uint64_t difference_len,
                          uint8_t *answer, uint64_t answer_len);

#ifdef __cplusplus
}
#endif

#endif /* QMTD_WIDE_H */
