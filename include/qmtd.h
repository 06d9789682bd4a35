/* qmtd.h - a page code for small tables sent over a noisy lead, and its threshold decoder.
 *
 * WHAT IT DOES. A page is b branches of k data symbols each, then k check symbols for all of them; a symbol is a byte
 * from 0 to q - 1. With b = 1 half of the page is data, with b = 8 eight ninths. The library
 *   - checks a code table               qmtd_check_table
 *   - encodes data into a page          qmtd_encode
 *   - works out a page's syndrome       qmtd_syndrome
 *   - decodes a received page, with how firmly each of its data symbols then stands
 *                                       qmtd_decode
 *   - gives the same answers with counters that the caller lends
 *                                       qmtd_decode_counters
 *   - encodes data in blocks, each with an outer check, and decodes such a page: where a block does not fit its outer
 *     check after the passes, one more step may put a symbol of it right
 *                                       qmtd_encode_outer, qmtd_decode_outer
 *   - opens a received page, and makes one pass of the decoder on it, so that the page can be looked at between passes
 *                                       qmtd_open, qmtd_pass
 *   - tells why a pass would leave a data symbol of such a page, or that it would change it
 *                                       qmtd_explain
 *
 * WHAT IT DOES NOT DO. Damage means that a symbol is replaced by another: lost or inserted symbols are not handled.
 * There are no convolutional codes, no soft decisions and no simulated channels. Decoding is no checksum: QMTD_OK says
 * that the decoder ran, not that its answer is what was sent. What is promised is this:
 *
 *   If at most t symbols of an encoded page were replaced and 2 * t + (smallest threshold of the list) <= J,
 *   then the result is the data that was encoded.
 *
 * Of passes made one by one it is promised with the smallest threshold among those that were not refused (qmtd_pass);
 * of qmtd_decode_outer for data whose blocks, of the length that it is given, kept the outer rule. Beyond that bound
 * every change of a pass brings the answer nearer to the received page, but not always to what was sent.
 *
 * THE CODE. All sums are taken modulo q. The b * k data symbols are numbered through: symbol i of branch r has the
 * number r * k + i. The code table is b runs of J positions, one run for each branch, one after the other. Check i is
 * the sum of the data symbols r * k + ((i - p) mod k) over all branches r and all positions p of run r; so data symbol
 * r * k + i is in the checks (i + p) mod k, for the J positions p of run r, and in no others. The table is
 * self-orthogonal when any two different data symbols, of one branch or of two, have at most one check in common; only
 * such tables are taken. Equally: the differences (a - c) mod k of all ordered pairs of different positions a, c of one
 * run, over all runs together, are different. Examples with k = 13: b = 1 with positions 0, 1, 4, 6, so J = 4; b = 2
 * with runs 0, 1, 4 and 0, 2, 7, so J = 3.
 *
 * RULES FOR ALL CALLS
 *   - Refusals are tested in the order 1, 2, 10, 3, 4, .. 9, then 11 or 12, and the first that applies is returned.
 *   - A refused call changes no byte of the memory lent to it.
 *   - What is const is only read. What is lent for an answer is written whole when the call returns QMTD_OK; what it
 *     held before does not matter. Only qmtd_pass has buffers that it reads and writes, and the counters of
 *     qmtd_decode_counters must be all 0 before the call and are all 0 after it.
 *   - The pieces of memory lent in one call must not overlap. No call can see that: it is for the caller to keep.
 *   - A length is a uint64_t on every processor, since a length has 64 bits in the library's own language. A size_t or
 *     sizeof converts by itself.
 *
 * THE ARCHIVE. These are properties of the compiled archive. Tests show them, no proof does.
 *   - Alignment: none is asked of any pointer. The tests lend each piece of memory at all distances from an aligned
 *     address.
 *   - Null: a pointer may be null where its length is 0. All such calls are refused, since nothing here may be empty.
 *   - Threads: calls from several threads are safe on separate buffers; buffers that are only read may be shared. The
 *     archive has no data of its own and takes nothing from outside but memset (for Cortex-M under its ARM names
 *     __aeabi_memclr and __aeabi_memclr4), so it has no heap and no lock. The tests look at the archive's names.
 *   - Stack: allow 9 KiB. The tests measure what each call uses. There is no recursion in the source.
 *
 * WHAT IS PROVED. What is said of the calls, but for what stands under THE ARCHIVE, is proved for every input: the
 * returned number, all that is written and all that is left, and the bound. It is proved of the library's source on its
 * language's abstract machine. Not proved is the compiler, on any processor. The source is lowered once, with the
 * memory layout of x86-64 (a pointer takes 8 bytes, a length 8), and that one module is compiled for each processor.
 * Not proved either is that the declarations below fit the source, nor are the macros and inline functions of this
 * header. For all of this speak tests: the archive is run against the pages of an independent program; README.md says
 * on which processors. What is said of speed is measured.
 */
#ifndef QMTD_H
#define QMTD_H

#include <stddef.h> /* size_t and NULL, for callers */
#include <stdint.h>

#ifdef __cplusplus
extern "C" {
#endif

/* ---- Version ---- */

#define QMTD_VERSION_MAJOR 0
#define QMTD_VERSION_MINOR 12
#define QMTD_VERSION_PATCH 0
#define QMTD_VERSION_NUMBER (QMTD_VERSION_MAJOR * 10000 + QMTD_VERSION_MINOR * 100 + QMTD_VERSION_PATCH)

/* ---- Limits, both ends included ---- */

#define QMTD_MIN_Q 3            /* alphabet size */
#define QMTD_MAX_Q 256
#define QMTD_MIN_K 1            /* data symbols of a branch, and check symbols of a page */
#define QMTD_MAX_K 4096
#define QMTD_MIN_B 1            /* branches */
#define QMTD_MAX_B 8
#define QMTD_MAX_DATA 4096      /* data symbols of a page, b * k */
#define QMTD_MIN_J 1            /* positions in a run of a table */
#define QMTD_MAX_J 32
#define QMTD_MIN_THRESHOLDS 1   /* thresholds in a list, one a pass */
#define QMTD_MAX_THRESHOLDS 64
#define QMTD_MAX_THRESHOLD 32   /* a threshold; the smallest is 0 */
#define QMTD_MIN_BLOCK 2        /* data symbols of a block; the largest is b * k */

/* ---- Lengths in bytes ---- */

#define QMTD_TABLE_LEN(b, j) (2 * (b) * (j))   /* a table of b runs of j positions */
#define QMTD_DATA_LEN(k, b) ((b) * (k))        /* data, result and difference; a syndrome is k bytes */
#define QMTD_PAGE_LEN(k, b) (((b) + 1) * (k))  /* a page */
#define QMTD_MARGIN_LEN 4                      /* a margin */
#define QMTD_MARGINS_LEN(k, b) (4 * (b) * (k)) /* the margins of a decode, one for each data symbol */
#define QMTD_COUNTS_LEN 16                     /* the counts of a decode */
#define QMTD_COUNTERS_LEN 256                  /* the counters of a decode, one for each value of a byte */
#define QMTD_CHANGES_LEN 4                     /* the changes of a pass */
#define QMTD_ANSWER_LEN 24                     /* the answer of an explanation */
#define QMTD_MAX_TABLE_LEN QMTD_TABLE_LEN(QMTD_MAX_B, QMTD_MAX_J) /* the longest table */
#define QMTD_MAX_PAGE_LEN (QMTD_MAX_DATA + QMTD_MAX_K)            /* the longest page */

/* ---- Returned numbers, in the order in which they are tested ---- */

#define QMTD_OK 0                  /* done */
#define QMTD_BAD_Q 1               /* q outside 3 to 256 */
#define QMTD_BAD_K 2               /* k outside 1 to 4,096 */
#define QMTD_BAD_BRANCHES 10       /* b outside 1 to 8, or b * k above 4,096; tested after 2 and before 3 */
#define QMTD_BAD_J 3               /* not b runs of equal length J, J from 1 to 32, or an odd table length */
#define QMTD_BAD_POSITION 4        /* a position is k or more, or not above the one before it in its run */
#define QMTD_NOT_SELF_ORTHOGONAL 5 /* two data symbols have more than one check in common */
#define QMTD_BAD_LENGTH 6          /* a lent buffer is not exactly as long as the call needs, or a counter is not 0 */
#define QMTD_BAD_SYMBOL 7          /* a symbol of the input is q or more (never at q = 256) */
#define QMTD_BAD_THRESHOLD_COUNT 8 /* no threshold, or more than 64 */
#define QMTD_BAD_THRESHOLD 9       /* a threshold above 32 */
#define QMTD_BAD_SYMBOL_NUMBER 11  /* the number of a data symbol is b * k or more; tested after all others */
#define QMTD_BAD_BLOCK 12          /* a block length below 2, or one that does not divide b * k; tested after 9 */

/* ---- Grounds, of qmtd_explain ---- */

#define QMTD_GROUND_NO_LEAD 1 /* left: no value leads by more than the threshold */
#define QMTD_GROUND_ZERO 2    /* left: 0 leads by more than the threshold */
#define QMTD_GROUND_CHANGE 3  /* a visit now would change the symbol */

/* ---- The bytes of tables and answers. C of this header: none of it is in the archive. ---- */

/* The two bytes of a position, low byte first, for the table of a code: {QMTD_POSITION(0), QMTD_POSITION(260)} is four
 * bytes. p is a constant from 0 to k - 1. */
#define QMTD_POSITION(p) ((p) & 0xff), ((p) >> 8)

/* The 32-bit number in four bytes, low byte first. After a decode its passes are qmtd_number(counts), its changes
 * qmtd_number(counts + 4), its distances qmtd_number(counts + 8) and qmtd_number(counts + 12). */
static inline uint32_t qmtd_number(const uint8_t *bytes)
{
    uint32_t number = bytes[3];
    number = number << 8 | bytes[2];
    number = number << 8 | bytes[1];
    return number << 8 | bytes[0];
}

/* The margin of data symbol j among the margins that a decode wrote: four bytes each, two's complement. */
static inline int32_t qmtd_margin(const uint8_t *margins, uint64_t j)
{
    const uint8_t *bytes = margins + QMTD_MARGIN_LEN * j;
    int32_t margin = bytes[3] < 128 ? bytes[3] : bytes[3] - 256;
    margin = margin * 256 + bytes[2];
    margin = margin * 256 + bytes[1];
    return margin * 256 + bytes[0];
}

/* The compiler warns where a returned number is dropped. */
#if defined(__GNUC__) || defined(__clang__)
#define QMTD_MUST_USE __attribute__((warn_unused_result))
#else
#define QMTD_MUST_USE
#endif

/* ---- Calls ---- */

/* The version of the linked archive; equals QMTD_VERSION_NUMBER when header and archive belong together. */
uint32_t qmtd_version(void);

/* Checks a code table.
 *   table       b runs of J positions, one after the other, each run strictly ascending, each position below k; two
 *               bytes a position, low byte first (QMTD_POSITION)
 *   table_len   2 * b * J
 * Writes nothing. Returns QMTD_OK, or 1, 2, 10, 3, 4 or 5. The other calls make the same checks first. */
QMTD_MUST_USE
uint32_t qmtd_check_table(uint32_t q, uint32_t k, uint32_t b, const uint8_t *table, uint64_t table_len);

/* Encodes data into a page.
 *   data        read: b * k symbols, branch 0 whole, branch 1 whole, ..
 *   page        written whole: (b + 1) * k symbols, the data, then the k check symbols
 * Returns QMTD_OK, or 1 to 7 or 10; refused, page is left as it was. */
QMTD_MUST_USE
uint32_t qmtd_encode(uint32_t q, uint32_t k, uint32_t b, const uint8_t *table, uint64_t table_len,
                     const uint8_t *data, uint64_t data_len,
                     uint8_t *page, uint64_t page_len);

/* Works out the syndrome of a received page.
 *   page        read: (b + 1) * k symbols
 *   syndrome    written whole: k symbols; symbol i is the sum of the received data symbols in check i, minus the
 *               received check symbol i. All are 0 exactly when the page is a code word.
 * Returns QMTD_OK, or 1 to 7 or 10; refused, syndrome is left as it was. */
QMTD_MUST_USE
uint32_t qmtd_syndrome(uint32_t q, uint32_t k, uint32_t b, const uint8_t *table, uint64_t table_len,
                       const uint8_t *page, uint64_t page_len,
                       uint8_t *syndrome, uint64_t syndrome_len);

/* Decodes a received page.
 * A pass visits data symbols 0 to b * k - 1 with one threshold T. A visit to j collects J + 1 estimates: the difference
 * at j and the syndrome at each check of j. When the commonest value is not 0 and leads the next by more than T votes,
 * it is subtracted from the result at j, from the difference at j and from the syndrome at each check of j: a change.
 * After a pass with a change comes the next in the list, whatever its threshold. After an idle pass, one without a
 * change, comes the first later one in the list whose threshold is smaller than its own; those between are skipped.
 * Decoding stops where there is no such pass, or at the list's end. A list may so start strict and end loose: 3, 2, 0.
 * A vote compares the estimates pair by pair. A quick test comes before it, whether any value occurs often enough to be
 * subtracted; where none does, no vote is taken.
 *   page        read: (b + 1) * k symbols
 *   thresholds  read: 1 to 64 thresholds of one byte each, from 0 to 32, one a pass in this order. A pass with the
 *               smallest threshold is always run, so where that stands in the list does not matter for the bound.
 *   result      written whole: b * k symbols, the decoded data
 *   syndrome    written whole: k symbols, the syndrome as the last visit left it
 *   difference  written whole: b * k symbols, result minus received data
 *   margins     written whole: 4 * b * k bytes, a signed 32-bit number for each data symbol, two's complement, low byte
 *               first; qmtd_margin reads one. The margin of data symbol j is the number of zeros among its J + 1
 *               estimates, from the syndrome and the difference handed back, minus the largest count of any one other
 *               value, 0 if there is none: how firmly the symbol stands in the result. It is from -(J + 1) to J + 1.
 *                 J + 1      every estimate is 0: nothing speaks against the symbol
 *                 0 or less  another value has at least as many votes as 0
 *                 -(J + 1)   every estimate is one same other value
 *               A visit with threshold T would change nothing at j where the margin is -T or more. A margin, like
 *               QMTD_OK, does not say that the symbol is the one sent.
 *   counts      written whole: 16 bytes, four 32-bit numbers, low byte first (qmtd_number):
 *                 bytes  0 to  3  passes run, idle ones included, skipped ones not; on a page at distance 0 one for
 *                                 each threshold that is smaller than all before it in the list
 *                 bytes  4 to  7  changes
 *                 bytes  8 to 11  distance at the start
 *                 bytes 12 to 15  distance at the end
 *               A distance is the number of places, of (b + 1) * k, where the page encoded from the result as it then
 *               stands differs from the received page.
 * Returns QMTD_OK, or 1 to 10; refused, result, syndrome, difference, margins and counts are left as they were. */
QMTD_MUST_USE
uint32_t qmtd_decode(uint32_t q, uint32_t k, uint32_t b, const uint8_t *table, uint64_t table_len,
                     const uint8_t *page, uint64_t page_len,
                     const uint8_t *thresholds, uint64_t thresholds_len,
                     uint8_t *result, uint64_t result_len,
                     uint8_t *syndrome, uint64_t syndrome_len,
                     uint8_t *difference, uint64_t difference_len,
                     uint8_t *margins, uint64_t margins_len,
                     uint8_t *counts, uint64_t counts_len);

/* Decodes a received page with counters: for a caller who has 256 bytes to lend. Where these are as they must be, it
 * gives what qmtd_decode gives, the same number, result, syndrome, difference, margins and counts. A vote is read from
 * one counter for each value, so that its work grows with J and not with the square of J. The quick test of qmtd_decode
 * comes before this vote too, so little is gained: some percent on heavily damaged pages, nothing on clean ones, and on
 * lightly damaged ones it may be up to 5 % slower.
 *   counters    read and written: 256 bytes, whatever q is, all 0 before the call and all 0 after it; so they serve for
 *               the next call as they are
 *   the others  as for qmtd_decode
 * Returns QMTD_OK, or 1 to 10: 6 also where counters_len is not 256 or a counter is not 0. Refused, result, syndrome,
 * difference, margins, counters and counts are left as they were. */
QMTD_MUST_USE
uint32_t qmtd_decode_counters(uint32_t q, uint32_t k, uint32_t b, const uint8_t *table, uint64_t table_len,
                              const uint8_t *page, uint64_t page_len,
                              const uint8_t *thresholds, uint64_t thresholds_len,
                              uint8_t *result, uint64_t result_len,
                              uint8_t *syndrome, uint64_t syndrome_len,
                              uint8_t *difference, uint64_t difference_len,
                              uint8_t *margins, uint64_t margins_len,
                              uint8_t *counters, uint64_t counters_len,
                              uint8_t *counts, uint64_t counts_len);

/* Encodes data in blocks, each with an outer check. Block i is the data symbols i * block to i * block + block - 1; the
 * blocks run through all branches, and one may lie across two of them. The last symbol of a block is its outer check:
 * the page gets there the symbol that makes the block sum to 0 modulo q, and the k check symbols of the page count it
 * like any other. So a page carries b * k - b * k / block symbols of the caller's own.
 *   block       the length of a block, 2 or more; it divides b * k
 *   data        read: b * k symbols. What stands at the last place of a block is ignored, but must be below q.
 *   page        written whole: (b + 1) * k symbols, the page that qmtd_encode writes of the data with the last place of
 *               each block replaced
 * Returns QMTD_OK, or 1 to 7, 10 or 12; refused, page is left as it was. */
QMTD_MUST_USE
uint32_t qmtd_encode_outer(uint32_t q, uint32_t k, uint32_t b, const uint8_t *table, uint64_t table_len,
                           uint32_t block,
                           const uint8_t *data, uint64_t data_len,
                           uint8_t *page, uint64_t page_len);

/* Decodes a received page whose data was sent in blocks with an outer check. The passes are those of qmtd_decode. After
 * them the blocks are taken in order. Where a block of the result sums to e modulo q and e is not 0, the reliability of
 * a symbol of it is the number of zeros among the symbol's J + 1 estimates minus the number of those equal to e, by the
 * syndrome and the difference as they stand when the block's turn comes. Of the symbols but the last the one of least
 * reliability is taken, the earliest of equal ones. If its reliability is below that of the block's last symbol, e is
 * subtracted from the result and the difference at that symbol and from the syndrome at each of its checks: an outer
 * step. The block then sums to 0, also in the result handed back. Otherwise, and where e is 0, it is left as it is.
 *   block       the length of a block, 2 or more; it divides b * k. It is the one that the page was encoded with: the
 *               page does not hold it.
 *   counts      as for qmtd_decode; the outer steps are counted as changes and are no pass, and the distance at the end
 *               is taken after them
 *   the others  as for qmtd_decode; result, syndrome, difference and margins are those after the outer steps
 * An outer step adds its symbol's reliability to the distance, which so may rise or fall; only the changes of passes
 * always lower it. If the blocks of the data, as encoded, all summed to 0, at most t symbols of the page were replaced
 * and 2 * t + (smallest threshold of the list) <= J, then the result is the data that was encoded, its outer checks
 * among it, and there is no outer step. On a code word whose blocks do not sum to 0 there is none either.
 * Returns QMTD_OK, 1 to 10 or 12; refused, result, syndrome, difference, margins and counts are left as they were. */
QMTD_MUST_USE
uint32_t qmtd_decode_outer(uint32_t q, uint32_t k, uint32_t b, const uint8_t *table, uint64_t table_len,
                           uint32_t block,
                           const uint8_t *page, uint64_t page_len,
                           const uint8_t *thresholds, uint64_t thresholds_len,
                           uint8_t *result, uint64_t result_len,
                           uint8_t *syndrome, uint64_t syndrome_len,
                           uint8_t *difference, uint64_t difference_len,
                           uint8_t *margins, uint64_t margins_len,
                           uint8_t *counts, uint64_t counts_len);

/* Opens a received page: fills what decoding starts from, for qmtd_pass to work on. The page is not needed after that.
 *   page        read: (b + 1) * k symbols
 *   result      written whole: b * k symbols, the received data
 *   syndrome    written whole: k symbols, as qmtd_syndrome writes them
 *   difference  written whole: b * k symbols, all 0
 * Returns QMTD_OK, or 1 to 7 or 10; refused, result, syndrome and difference are left as they were. */
QMTD_MUST_USE
uint32_t qmtd_open(uint32_t q, uint32_t k, uint32_t b, const uint8_t *table, uint64_t table_len,
                   const uint8_t *page, uint64_t page_len,
                   uint8_t *result, uint64_t result_len,
                   uint8_t *syndrome, uint64_t syndrome_len,
                   uint8_t *difference, uint64_t difference_len);

/* Makes one pass with one threshold: visits data symbols 0 to b * k - 1 once each, in this order, as qmtd_decode says.
 *   threshold   from 0 to 32
 *   result      read and written: b * k symbols
 *   syndrome    read and written: k symbols
 *   difference  read and written: b * k symbols. The three are as qmtd_open or the last pass left them, or hold any
 *               symbols below q.
 *   changes     written whole: 4 bytes, a 32-bit number (qmtd_number): the changes of this pass. A pass that changes
 *               nothing leaves the other three buffers as they were.
 * Whatever symbols below q the buffers hold, each change lowers the number of nonzero symbols of syndrome and
 * difference together by more than the threshold, and every other visit leaves the buffers as they were.
 *
 * The rest is promised of the buffers of an opened page, as long as nothing has altered them since but passes with the
 * q, k, b and table of the opening. A refused pass makes no visit and counts for nothing.
 *   - After each pass the result is the received data plus the difference, and the syndrome is the check symbols
 *     encoded from the result minus the received ones. So the nonzero symbols of syndrome and difference together
 *     number the places where the page encoded from the result differs from the received page: the distance of
 *     qmtd_decode.
 *   - If at most t symbols of an encoded page were replaced and 2 * t + (smallest threshold of the passes that were not
 *     refused) <= J, then the result is the data that was encoded. Before the first such pass nothing is said.
 *   - Passes in turn with the thresholds of those that qmtd_decode runs leave its result, syndrome and difference; it
 *     counts as many passes, and their changes together. No pass is skipped here: the caller says when to stop.
 * Returns QMTD_OK, or 1 to 7, 9 or 10: 6 also where changes_len is not 4, 7 for a symbol of any of the three buffers.
 * Refused, result, syndrome, difference and changes are left as they were. */
QMTD_MUST_USE
uint32_t qmtd_pass(uint32_t q, uint32_t k, uint32_t b, const uint8_t *table, uint64_t table_len,
                   uint32_t threshold,
                   uint8_t *result, uint64_t result_len,
                   uint8_t *syndrome, uint64_t syndrome_len,
                   uint8_t *difference, uint64_t difference_len,
                   uint8_t *changes, uint64_t changes_len);

/* Tells by which ground a visit to one data symbol would act now, and which of the symbol's estimates speak for it.
 * Alters nothing but the answer.
 *   threshold   from 0 to 32
 *   symbol      the number of a data symbol, from 0 to b * k - 1
 *   result      read: b * k symbols
 *   syndrome    read: k symbols
 *   difference  read: b * k symbols. The three are as qmtd_open, a pass or qmtd_decode left them, or hold any symbols
 *               below q.
 *   answer      written whole: 24 bytes, four 32-bit numbers (qmtd_number) and one of 64 bits, low byte first:
 *                 bytes  0 to  3  the ground, 1 to 3
 *                 bytes  4 to  7  h0, the commonest of the J + 1 estimates; in a tie the smallest of the tied values
 *                 bytes  8 to 11  m0, how many estimates equal h0
 *                 bytes 12 to 15  m1, the largest count of any one other value, 0 if there is none
 *                 bytes 16 to 23  which estimates equal h0, a bit for each, the lowest first: bit 0 is the difference at
 *                                 the symbol, bit i + 1 the syndrome at the check of position i of its branch's run,
 *                                 i from 0. m0 bits are set. Bit n is answer[16 + n / 8] >> n % 8 & 1; there are J + 1,
 *                                 33 at most, and the bits above are 0.
 *               The ground is the one by which a visit with this threshold would act on the buffers as they stand:
 *                 1  m0 - m1 is not above the threshold: it would leave the symbol
 *                 2  m0 - m1 is above the threshold and h0 is 0: it would leave the symbol
 *                 3  m0 - m1 is above the threshold and h0 is not 0: it would subtract h0, as qmtd_decode says
 *               A pass may find the symbol otherwise, after the changes that it makes before it comes there.
 * Returns QMTD_OK, or 1 to 7, 9, 10 or 11: 6 also where answer_len is not 24, 7 for a symbol of any of the three
 * buffers. Refused, answer is left as it was. */
QMTD_MUST_USE
uint32_t qmtd_explain(uint32_t q, uint32_t k, uint32_t b, const uint8_t *table, uint64_t table_len,
                      uint32_t threshold, uint32_t symbol,
                      const uint8_t *result, uint64_t result_len,
                      const uint8_t *syndrome, uint64_t syndrome_len,
                      const uint8_t *difference, uint64_t difference_len,
                      uint8_t *answer, uint64_t answer_len);

#ifdef __cplusplus
}
#endif

#endif /* QMTD_H */
