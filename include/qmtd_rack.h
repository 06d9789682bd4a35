/* qmtd_rack.h - thirty-two leads on one rack: pages that are decoded one data symbol at a time, in turn, by budgets.
 *
 * A rack has 32 leads, numbered from 0 to 31. A page is loaded on a free lead, decoded there visit by visit beside the
 * pages of the other leads, and taken away when it is finished. The caller lends the whole rack with each call:
 *   leads        32 records, one for each lead
 *   last         one byte, the number of the lead served last
 *   results      32 * b * k symbols; lead n has the b * k from n * b * k on
 *   syndromes    32 * k symbols; lead n has the k from n * k on
 *   differences  32 * b * k symbols; lead n has the b * k from n * b * k on
 * The calls are
 *   - a rack made new                     qmtd_rack_new
 *   - a page loaded on a lead             qmtd_rack_load
 *   - a budget of visits                  qmtd_rack_run
 *   - a finished page taken away          qmtd_rack_take
 * All leads share a code and a list of thresholds, which are the same in every call. A visit is one to a data symbol,
 * as qmtd_decode says. Visits go round by lead number, one to each lead that has work due, from the lead after the one
 * served last on; the next call goes on where this one ended.
 *
 * WHAT IS PROMISED of a rack that qmtd_rack_new made new and that nothing but these calls, with one code and one list,
 * has altered since, refused calls among them:
 *   - A page taken away has the result and the counts that qmtd_decode gives for it alone with this code and list,
 *     however loads, takings and budgets mix. So the bound of qmtd.h holds for it too.
 *   - A lead gets at least one of any 32 visits in a row as long as it has work due, also across calls.
 * And of any rack that is not refused:
 *   - qmtd_rack_run makes as many visits as it reports: the budget, or those that finish every loaded page where these
 *     are fewer.
 *
 * The rules for all calls and what is said of the archive are those of qmtd.h, and so are its macros, but for these:
 *   - Refusals are tested in the order 1, 2, 10, 3, 4, .. 9, 16, 17, 18. qmtd_rack_new has 6 alone.
 *   - The rack is read, and written in the parts that each call names; the rest of it is left as it was.
 *   - leads_count counts records, not bytes. Like every length it is a uint64_t.
 *   - Alignment: leads is aligned to 4 bytes, as a struct qmtd_lead * must be in C. No other pointer needs any.
 *   - A record is what the calls work by. A caller may read it between calls, and has qmtd_rack_new or qmtd_rack_take
 *     alone make a lead free. A record of a lead that holds a page is tested by each call, but one that was altered
 *     within its limits cannot be told from a right one. Of a free lead nothing is looked at but holds.
 *   - Null: a pointer may be null where its length or count is 0. All such calls are refused.
 *   - Threads: a rack is for one call at a time; two racks are separate.
 * Each call but qmtd_rack_new tests the table, and the records and the parts of all leads that hold a page. So a large
 * budget costs less a visit than many small ones.
 */
#ifndef QMTD_RACK_H
#define QMTD_RACK_H

#include "qmtd.h"

#ifdef __cplusplus
extern "C" {
#endif

/* ---- Returned numbers, beside those of qmtd.h ---- */

#define QMTD_BAD_LEAD 16          /* a lead number above 31, that of the lead served last too; tested after 9 */
#define QMTD_LEAD_NOT_FREE 17     /* loading onto a lead that holds a page, one that is finished too */
#define QMTD_LEAD_NOT_FINISHED 18 /* taking from a lead that holds no page, or one that is not finished */

/* ---- Sizes ---- */

#define QMTD_RACK_LEADS 32                        /* the leads of a rack, and its records */
#define QMTD_RACK_LAST_LEN 1                      /* the number of the lead served last */
#define QMTD_RACK_DATA_LEN(k, b) (32 * (b) * (k)) /* results, and differences */
#define QMTD_RACK_SYNDROMES_LEN(k) (32 * (k))     /* syndromes */
#define QMTD_RACK_MADE_LEN 4                      /* the visits made */

/* ---- The record of a lead ---- */

/* What a lead holds. */
#define QMTD_LEAD_FREE 0     /* no page */
#define QMTD_LEAD_DUE 1      /* a page that has visits due */
#define QMTD_LEAD_FINISHED 2 /* a finished page, to be taken away */

/* Where a lead stands with its page. The limits are those that 6 tests of a lead that holds a page. */
struct qmtd_lead {
    uint32_t holds;   /* 0, 1 or 2, as above */
    uint32_t place;   /* the place in the list, from 0, of the pass under way, of a finished page of its last pass;
                         below the number of thresholds */
    uint32_t symbol;  /* the data symbol that is visited next, 0 where the page is finished; below b * k */
    uint32_t before;  /* the changes before the pass under way, of a finished page all; at most 262,144 */
    uint32_t passes;  /* the passes run, without the one under way; at most 64 */
    uint32_t changes; /* the changes so far, those of the pass under way too; at most 262,144 */
    uint32_t start;   /* the distance at the start; at most 8,192 */
};

/* The record is seven numbers of 32 bits without gaps on every processor, 28 bytes: an error here where it is not. */
typedef char qmtd_lead_layout[sizeof(struct qmtd_lead) == 28 ? 1 : -1];

/* ---- Calls ---- */

/* Makes a rack new, whatever it held: all leads free, every record all 0, and 31 served last, so that lead 0 is the
 * first in turn. The three buffers are not needed: a load fills its parts.
 *   leads       written whole: 32 records
 *   last        written whole: 1 byte
 * Returns QMTD_OK, or 6; refused, both are left as they were. */
QMTD_MUST_USE
uint32_t qmtd_rack_new(struct qmtd_lead *leads, uint64_t leads_count,
                       uint8_t *last, uint64_t last_len);

/* Loads a page on a free lead: fills the lead's parts as qmtd_open fills its three buffers, and its record. The page is
 * not needed after that. No visit is made.
 *   leads        read and written: 32 records, of which that of the lead is written
 *   last         read: 1 byte
 *   results      read and written: 32 * b * k symbols, of which the lead's part is written
 *   syndromes    read and written: 32 * k symbols, likewise
 *   differences  read and written: 32 * b * k symbols, likewise
 *   thresholds   read: as for qmtd_decode
 *   lead         the number of the lead
 *   page         read: (b + 1) * k symbols
 * Returns QMTD_OK, or 1 to 10, 16 or 17:
 *   6   leads_count is not 32, last_len not 1, or the length of another buffer not the one above; or a record of a lead
 *       that holds a page is outside its limits, so that an empty list is 6 where a lead holds a page
 *   7   a symbol of the page, or of any part of a lead that holds a page, is q or more
 *   16  lead is above 31, or the number in last is
 *   17  the lead holds a page
 * Refused, leads, results, syndromes and differences are left as they were. */
QMTD_MUST_USE
uint32_t qmtd_rack_load(struct qmtd_lead *leads, uint64_t leads_count,
                        const uint8_t *last, uint64_t last_len,
                        uint8_t *results, uint64_t results_len,
                        uint8_t *syndromes, uint64_t syndromes_len,
                        uint8_t *differences, uint64_t differences_len,
                        uint32_t q, uint32_t k, uint32_t b, const uint8_t *table, uint64_t table_len,
                        const uint8_t *thresholds, uint64_t thresholds_len,
                        uint32_t lead,
                        const uint8_t *page, uint64_t page_len);

/* Makes visits within a budget, one to each lead with work due in turn. A page is finished with the last visit of its
 * last pass, which is the one after which qmtd_decode stops.
 *   leads        read and written: 32 records, of which those of the leads visited are written
 *   last         read and written: 1 byte; where no visit is made it stays
 *   results      read and written: 32 * b * k symbols, of which the parts of the leads visited are written
 *   syndromes    read and written: 32 * k symbols, likewise
 *   differences  read and written: 32 * b * k symbols, likewise
 *   thresholds   read: as for qmtd_decode
 *   budget       the most visits to make, any number
 *   made         written whole: 4 bytes, a 32-bit number (qmtd_number): the visits made, the smaller of the budget and
 *                those that finish every loaded page. Where it is less than the budget no lead has work due.
 * Returns QMTD_OK, or 1 to 10 or 16: as qmtd_rack_load, but 6 also where made_len is not 4, and there is no page.
 * Refused, leads, last, results, syndromes, differences and made are left as they were. */
QMTD_MUST_USE
uint32_t qmtd_rack_run(struct qmtd_lead *leads, uint64_t leads_count,
                       uint8_t *last, uint64_t last_len,
                       uint8_t *results, uint64_t results_len,
                       uint8_t *syndromes, uint64_t syndromes_len,
                       uint8_t *differences, uint64_t differences_len,
                       uint32_t q, uint32_t k, uint32_t b, const uint8_t *table, uint64_t table_len,
                       const uint8_t *thresholds, uint64_t thresholds_len,
                       uint32_t budget,
                       uint8_t *made, uint64_t made_len);

/* Takes a finished page away: copies its result out, hands back its counts and frees the lead, whose record is then all
 * 0. Its three parts stay as they are.
 *   leads        read and written: 32 records, of which that of the lead is written
 *   last         read: 1 byte
 *   results      read: 32 * b * k symbols
 *   syndromes    read: 32 * k symbols
 *   differences  read: 32 * b * k symbols
 *   thresholds   read: as for qmtd_decode
 *   lead         the number of the lead
 *   result       written whole: b * k symbols, the decoded data
 *   counts       written whole: 16 bytes, as for qmtd_decode
 * Returns QMTD_OK, or 1 to 10, 16 or 18: as qmtd_rack_load, but 6 also where result_len is not b * k or counts_len not
 * 16, there is no page, and
 *   18  the lead holds no page, or one that has visits due
 * Refused, leads, result and counts are left as they were. */
QMTD_MUST_USE
uint32_t qmtd_rack_take(struct qmtd_lead *leads, uint64_t leads_count,
                        const uint8_t *last, uint64_t last_len,
                        const uint8_t *results, uint64_t results_len,
                        const uint8_t *syndromes, uint64_t syndromes_len,
                        const uint8_t *differences, uint64_t differences_len,
                        uint32_t q, uint32_t k, uint32_t b, const uint8_t *table, uint64_t table_len,
                        const uint8_t *thresholds, uint64_t thresholds_len,
                        uint32_t lead,
                        uint8_t *result, uint64_t result_len,
                        uint8_t *counts, uint64_t counts_len);

#ifdef __cplusplus
}
#endif

#endif /* QMTD_RACK_H */
