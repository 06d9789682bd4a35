/* rack_calls.c - what reference pages cannot hold of the calls on a rack: null pointers, every length about the right
 * one and lengths whose low bits are right, every limit of a record at every lead, numbers of every size, unaligned
 * memory, and many calls that mix loads, takings, budgets and refusals on codes of up to 4,096 data symbols, where each
 * lead's visits are counted in turn and every page taken away is compared with qmtd_decode. All memory lent lies between
 * guard bytes. */
#include "qmtd_rack.h"

#include <stdio.h>
#include <string.h>

static int failures;

#define EXPECT(condition)                                                      \
    do {                                                                       \
        if (!(condition) && failures++ < 20)                                   \
            printf("rack_calls.c:%d: not so: %s\n", __LINE__, #condition);     \
    } while (0)

enum { LEADS = QMTD_RACK_LEADS, MOST_DATA = QMTD_MAX_DATA, MOST_PAGE = QMTD_MAX_PAGE_LEN };
static const uint32_t HUGE_NUMBER = 0xFFFFFFFF;

/* Numbers that are the same in every run: xorshift64*. */
static uint64_t state = 88172645463325252u;

static uint32_t below(uint32_t n)
{
    state ^= state >> 12;
    state ^= state << 25;
    state ^= state >> 27;
    return (uint32_t)((state * 2685821657736338717u) >> 32) % n;
}

/* ---- Codes ---- */

/* Code A of document 01, two branches, three, eight with two positions each, and a ruler of ten marks. */
static const uint8_t table_a[] = {0, 0, 1, 0, 4, 0, 6, 0};
static const uint8_t table_2[] = {0, 0, 1, 0, 4, 0, 0, 0, 2, 0, 7, 0};
static const uint8_t table_3[] = {0, 0, 1, 0, 4, 0, 13, 0, 0, 0, 2, 0, 17, 0, 24, 0, 0, 0, 5, 0, 26, 0, 34, 0};
static const uint8_t pairs[] = {0, 0, 1, 0, 0, 0, 2, 0, 0, 0, 3, 0, 0, 0, 4, 0,
                                0, 0, 5, 0, 0, 0, 6, 0, 0, 0, 7, 0, 0, 0, 8, 0};
static const uint8_t ruler[] = {0, 0, 1, 0, 6, 0, 10, 0, 23, 0, 26, 0, 34, 0, 41, 0, 53, 0, 55, 0};
static const uint8_t one_position[] = {0, 0};

static const struct code {
    uint32_t q, k, b;
    const uint8_t *table;
    size_t table_len;
    uint8_t thresholds[4];
    size_t thresholds_len;
    int calls; /* how many calls are made on a rack of this code */
} codes[] = {{256, 13, 1, table_a, sizeof table_a, {3, 2, 0}, 3, 3000},
             {3, 1, 1, one_position, sizeof one_position, {0, 0}, 2, 1500},
             {5, 13, 1, table_a, sizeof table_a, {0, 0, 0}, 3, 2000},
             {251, 13, 2, table_2, sizeof table_2, {1, 0, 1, 0}, 4, 1500},
             {17, 40, 3, table_3, sizeof table_3, {2, 1, 0}, 3, 600},
             {129, 17, 8, pairs, sizeof pairs, {1, 0}, 2, 500},
             {256, 512, 1, ruler, sizeof ruler, {3, 1, 0}, 3, 250},
             {200, 512, 8, pairs, sizeof pairs, {0}, 1, 60},
             {256, 4096, 1, ruler, sizeof ruler, {2, 0}, 2, 60}},
  *code; /* that of the calls below */

static uint32_t symbols(void)
{
    return QMTD_DATA_LEN(code->k, code->b);
}

static uint32_t page_len(void)
{
    return QMTD_PAGE_LEN(code->k, code->b);
}

/* ---- Memory to lend ---- */

/* Pieces of bytes with guard bytes before and after, and the records between two of their own. */
enum { GUARD_LEN = 64, GUARD = 0xC3, FILL = 0xEE };
enum { RESULTS, SYNDROMES, DIFFERENCES, LAST, THRESHOLDS, PAGE, MADE, RESULT, COUNTS, PIECES };
enum { BUFFER = LEADS * MOST_DATA + 2 * GUARD_LEN, OTHER = MOST_PAGE + 2 * GUARD_LEN };
static uint8_t buffers[3][BUFFER], others[PIECES - 3][OTHER];
static uint8_t *at[PIECES];
static uint64_t len[PIECES];
static struct qmtd_lead records[LEADS + 2], *leads = records + 1;
static uint64_t leads_count;

static uint8_t *block(size_t piece)
{
    return piece < LAST ? buffers[piece] : others[piece - LAST];
}

static size_t block_size(size_t piece)
{
    return piece < LAST ? BUFFER : OTHER;
}

#define PIECE(i) at[i], len[i]
#define CODE code->q, code->k, code->b, code->table, code->table_len
#define RACK leads, leads_count, PIECE(LAST), PIECE(RESULTS), PIECE(SYNDROMES), PIECE(DIFFERENCES)

static int all(const void *bytes, size_t count, uint8_t value)
{
    const uint8_t *byte = bytes;
    for (size_t i = 0; i < count; i++)
        if (byte[i] != value)
            return 0;
    return 1;
}

/* Lends what the code needs, every piece `shift` bytes or more from where it lies else, on a rack made new whose parts
 * hold what no call reads. */
static void prepare(const struct code *of, size_t shift)
{
    code = of;
    const uint64_t due[PIECES] = {QMTD_RACK_DATA_LEN(of->k, of->b), QMTD_RACK_SYNDROMES_LEN(of->k),
                                  QMTD_RACK_DATA_LEN(of->k, of->b), QMTD_RACK_LAST_LEN, of->thresholds_len, page_len(),
                                  QMTD_RACK_MADE_LEN, symbols(), QMTD_COUNTS_LEN};
    for (size_t i = 0; i < PIECES; i++) {
        at[i] = block(i) + GUARD_LEN + (shift == 0 ? 0 : (shift + i) % 16);
        len[i] = due[i];
        memset(block(i), GUARD, block_size(i));
        memset(at[i], FILL, due[i]);
    }
    memcpy(at[THRESHOLDS], of->thresholds, of->thresholds_len);
    memset(at[PAGE], 0, len[PAGE]);
    memset(records, GUARD, sizeof records);
    leads_count = LEADS;
    EXPECT(qmtd_rack_new(leads, leads_count, PIECE(LAST)) == QMTD_OK);
    EXPECT(at[LAST][0] == LEADS - 1 && all(leads, LEADS * sizeof leads[0], 0));
}

/* Is what is around the memory lent as it was? */
static int guarded(void)
{
    for (size_t i = 0; i < PIECES; i++) {
        const uint8_t *end = at[i] + len[i];
        if (!all(block(i), (size_t)(at[i] - block(i)), GUARD) ||
            !all(end, (size_t)(block(i) + block_size(i) - end), GUARD))
            return 0;
    }
    return all(records, sizeof records[0], GUARD) && all(records + LEADS + 1, sizeof records[0], GUARD);
}

/* A copy of all that is lent of a small code. */
struct copy {
    uint8_t pieces[PIECES][1024];
    struct qmtd_lead records[LEADS];
};

static void keep(struct copy *copy)
{
    for (size_t i = 0; i < PIECES; i++)
        memcpy(copy->pieces[i], at[i], len[i]);
    memcpy(copy->records, leads, sizeof copy->records);
}

static void put_back(const struct copy *copy)
{
    for (size_t i = 0; i < PIECES; i++)
        memcpy(at[i], copy->pieces[i], len[i]);
    memcpy(leads, copy->records, sizeof copy->records);
}

/* Is all as in the copy, and what is around it as it was? */
static int same(const struct copy *copy)
{
    for (size_t i = 0; i < PIECES; i++)
        if (memcmp(copy->pieces[i], at[i], len[i]) != 0)
            return 0;
    return memcmp(copy->records, leads, sizeof copy->records) == 0 && guarded();
}

static struct copy before;

static uint32_t load(uint32_t lead)
{
    return qmtd_rack_load(RACK, CODE, PIECE(THRESHOLDS), lead, PIECE(PAGE));
}

static uint32_t run(uint32_t budget)
{
    return qmtd_rack_run(RACK, CODE, PIECE(THRESHOLDS), budget, PIECE(MADE));
}

static uint32_t take(uint32_t lead)
{
    return qmtd_rack_take(RACK, CODE, PIECE(THRESHOLDS), lead, PIECE(RESULT), PIECE(COUNTS));
}

/* The calls by number, each with a lead, or a budget, that it would take. */
enum call { LOAD, RUN, TAKE, CALLS };

static uint32_t make(enum call call, uint32_t lead)
{
    return call == LOAD ? load(lead) : call == RUN ? run(lead) : take(lead);
}

/* The pieces whose lengths a call tests by 6; the thresholds have refusals of their own. */
static int takes(enum call call, size_t piece)
{
    switch (piece) {
    case THRESHOLDS: return 0;
    case PAGE: return call == LOAD;
    case MADE: return call == RUN;
    case RESULT:
    case COUNTS: return call == TAKE;
    default: return 1;
    }
}

/* ---- Refusals ---- */

/* Pages on leads 2, due, and 3, finished: with a load on 4 and a taking from 3 no call below is refused but for what is
 * amiss. */
static void with_two_pages(const struct code *of)
{
    prepare(of, 0);
    at[PAGE][0] = 1;
    EXPECT(load(3) == QMTD_OK && run(HUGE_NUMBER) == QMTD_OK && load(2) == QMTD_OK);
    EXPECT(leads[2].holds == QMTD_LEAD_DUE && leads[3].holds == QMTD_LEAD_FINISHED);
    memset(at[MADE], FILL, len[MADE]);
}

static uint32_t lead_for(enum call call)
{
    return call == LOAD ? 4 : 3;
}

/* Every piece with every length up to some beyond the right one, null where it is 0; then lengths whose low bits are
 * right. The same of the number of records. */
static void every_length(void)
{
    with_two_pages(&codes[0]);
    keep(&before);
    for (enum call call = LOAD; call < CALLS; call++) {
        for (size_t i = 0; i < PIECES; i++) {
            if (!takes(call, i))
                continue;
            const uint64_t due = len[i];
            uint8_t *const place = at[i];
            for (uint64_t n = 0; n <= due + 9; n++) {
                len[i] = n;
                at[i] = n == 0 ? NULL : place;
                if (n != due)
                    EXPECT(make(call, lead_for(call)) == QMTD_BAD_LENGTH);
            }
            at[i] = place;
            for (int bit = 8; bit < 64; bit++) {
                len[i] = due + ((uint64_t)1 << bit);
                EXPECT(make(call, lead_for(call)) == QMTD_BAD_LENGTH);
            }
            len[i] = due;
        }
        for (leads_count = 0; leads_count <= LEADS + 9; leads_count++)
            if (leads_count != LEADS)
                EXPECT(make(call, lead_for(call)) == QMTD_BAD_LENGTH);
        for (int bit = 6; bit < 64; bit++) {
            leads_count = LEADS + ((uint64_t)1 << bit);
            EXPECT(make(call, lead_for(call)) == QMTD_BAD_LENGTH);
        }
        leads_count = LEADS;
    }
    for (uint64_t n = 0; n < 70; n++) {
        if (n != LEADS)
            EXPECT(qmtd_rack_new(leads, n, PIECE(LAST)) == QMTD_BAD_LENGTH);
        if (n != QMTD_RACK_LAST_LEN)
            EXPECT(qmtd_rack_new(leads, leads_count, at[LAST], n) == QMTD_BAD_LENGTH);
        if (n > 5 && n < 64) {
            EXPECT(qmtd_rack_new(leads, LEADS + ((uint64_t)1 << n), PIECE(LAST)) == QMTD_BAD_LENGTH);
            EXPECT(qmtd_rack_new(leads, leads_count, at[LAST], 1 + ((uint64_t)1 << n)) == QMTD_BAD_LENGTH);
        }
    }
    EXPECT(same(&before));
}

/* All pieces and the records null, and each refusal that comes before 6; then those after it. */
static void null_with_length_0(void)
{
    with_two_pages(&codes[0]);
    struct code other = codes[0];
    struct qmtd_lead *const lent = leads;
    for (size_t i = 0; i < PIECES; i++) {
        at[i] = NULL;
        len[i] = 0;
    }
    leads = NULL;
    leads_count = 0;
    code = &other;
    for (enum call call = LOAD; call < CALLS; call++) {
        other = codes[0];
        EXPECT(make(call, 3) == QMTD_BAD_LENGTH);
        other.table = NULL, other.table_len = 0;
        EXPECT(make(call, 3) == QMTD_BAD_J);
        other.b = 0;
        EXPECT(make(call, 3) == QMTD_BAD_BRANCHES);
        other.k = 0;
        EXPECT(make(call, 3) == QMTD_BAD_K);
        other.q = 2;
        EXPECT(make(call, 3) == QMTD_BAD_Q);
    }
    EXPECT(qmtd_rack_new(NULL, 0, NULL, 0) == QMTD_BAD_LENGTH);
    leads = lent;

    /* No list: 6 where a page is held, 8 where none is. */
    with_two_pages(&codes[0]);
    at[THRESHOLDS] = NULL;
    len[THRESHOLDS] = 0;
    for (enum call call = LOAD; call < CALLS; call++)
        EXPECT(make(call, lead_for(call)) == QMTD_BAD_LENGTH);
    EXPECT(qmtd_rack_new(leads, leads_count, PIECE(LAST)) == QMTD_OK);
    for (enum call call = LOAD; call < CALLS; call++)
        EXPECT(make(call, lead_for(call)) == QMTD_BAD_THRESHOLD_COUNT);
}

/* Field f of a record: they are seven numbers in a row. */
static uint32_t *field(struct qmtd_lead *lead, size_t f)
{
    uint32_t *const fields[] = {&lead->holds, &lead->place, &lead->symbol, &lead->before,
                                &lead->passes, &lead->changes, &lead->start};
    return fields[f];
}

/* Every field of a due and of a finished lead at its limit and past it, at every lead; free ones are not looked at. */
static void limits_of_records(void)
{
    enum { FIELDS = 7 };
    const struct code *of = &codes[3];
    const uint32_t most[FIELDS] = {QMTD_LEAD_FINISHED, (uint32_t)of->thresholds_len - 1,
                                   QMTD_DATA_LEN(of->k, of->b) - 1, 262144, 64, 262144, 8192};
    prepare(of, 0);
    memset(at[RESULTS], 0, len[RESULTS]);
    memset(at[SYNDROMES], 0, len[SYNDROMES]);
    memset(at[DIFFERENCES], 0, len[DIFFERENCES]);
    for (uint32_t n = 0; n < LEADS; n++)
        for (uint32_t holds = QMTD_LEAD_DUE; holds <= QMTD_LEAD_FINISHED; holds++)
            for (size_t f = 0; f < FIELDS; f++) {
                const uint32_t values[] = {most[f],          most[f] + 1, most[f] + 2,
                                           most[f] + 524288, 0x80000000,  HUGE_NUMBER};
                for (size_t v = 0; v < sizeof values / sizeof values[0]; v++) {
                    memset(leads, 0, LEADS * sizeof leads[0]);
                    leads[n].holds = holds;
                    *field(&leads[n], f) = values[v];
                    const uint32_t number = v == 0 ? QMTD_OK : QMTD_BAD_LENGTH, other = (n + 1) % LEADS;
                    const int finished = leads[n].holds == QMTD_LEAD_FINISHED;
                    const struct qmtd_lead record = leads[n];
                    EXPECT(run(0) == number && memcmp(&record, &leads[n], sizeof record) == 0);
                    EXPECT(load(other) == number);
                    EXPECT(leads[other].holds == (v == 0 ? QMTD_LEAD_DUE : QMTD_LEAD_FREE));
                    EXPECT(take(n) == (v > 0 ? QMTD_BAD_LENGTH : finished ? QMTD_OK : QMTD_LEAD_NOT_FINISHED));
                    EXPECT(v > 0 || !finished || all(&leads[n], sizeof leads[n], 0));
                }
            }
    /* Free leads of any content. */
    memset(leads, 0xFF, LEADS * sizeof leads[0]);
    for (uint32_t n = 0; n < LEADS; n++)
        leads[n].holds = QMTD_LEAD_FREE;
    memset(at[RESULTS], 0xFF, len[RESULTS]);
    EXPECT(run(HUGE_NUMBER) == QMTD_OK && qmtd_number(at[MADE]) == 0);
    EXPECT(load(9) == QMTD_OK && take(9) == QMTD_LEAD_NOT_FINISHED);
    EXPECT(leads[8].place == HUGE_NUMBER && leads[10].start == HUGE_NUMBER && leads[9].place == 0);
    EXPECT(guarded());
}

/* A symbol of q at every place of the three buffers: refused in the parts of leads that hold a page, there alone. */
static void symbols_of_parts(void)
{
    with_two_pages(&codes[2]);
    for (size_t i = RESULTS; i <= DIFFERENCES; i++)
        for (uint32_t place = 0; place < len[i]; place++) {
            const uint32_t lead = place / (uint32_t)(len[i] / LEADS);
            const uint8_t symbol = at[i][place];
            at[i][place] = (uint8_t)code->q;
            keep(&before);
            if (lead == 2 || lead == 3) {
                for (enum call call = LOAD; call < CALLS; call++)
                    EXPECT(make(call, lead_for(call)) == QMTD_BAD_SYMBOL);
            } else {
                EXPECT(run(0) == QMTD_OK && load(2) == QMTD_LEAD_NOT_FREE && take(2) == QMTD_LEAD_NOT_FINISHED);
                memset(at[MADE], FILL, len[MADE]);
            }
            EXPECT(same(&before));
            at[i][place] = symbol;
        }
    for (uint32_t place = 0; place < len[PAGE]; place++) {
        const uint8_t symbol = at[PAGE][place];
        at[PAGE][place] = (uint8_t)code->q;
        EXPECT(load(4) == QMTD_BAD_SYMBOL && leads[4].holds == QMTD_LEAD_FREE);
        at[PAGE][place] = symbol;
    }
}

/* Leads of every number, and the lead served last. */
static void numbers_of_leads(void)
{
    with_two_pages(&codes[0]);
    keep(&before);
    const uint32_t served = at[LAST][0];
    for (int bit = 5; bit < 32; bit++)
        for (uint32_t n = 0; n < 8; n++) {
            EXPECT(load(n + ((uint32_t)1 << bit)) == QMTD_BAD_LEAD);
            EXPECT(take(n + ((uint32_t)1 << bit)) == QMTD_BAD_LEAD);
        }
    EXPECT(load(HUGE_NUMBER) == QMTD_BAD_LEAD && take(HUGE_NUMBER) == QMTD_BAD_LEAD);
    EXPECT(load(2) == QMTD_LEAD_NOT_FREE && load(3) == QMTD_LEAD_NOT_FREE);
    for (uint32_t n = 0; n < LEADS; n++)
        if (n != 3)
            EXPECT(take(n) == QMTD_LEAD_NOT_FINISHED);
    for (unsigned last = LEADS; last < 256; last++) {
        at[LAST][0] = (uint8_t)last;
        for (enum call call = LOAD; call < CALLS; call++)
            EXPECT(make(call, lead_for(call)) == QMTD_BAD_LEAD);
        EXPECT(load(2) == QMTD_BAD_LEAD && take(2) == QMTD_BAD_LEAD && at[LAST][0] == last);
    }
    at[LAST][0] = (uint8_t)served;
    EXPECT(same(&before));
}

/* ---- Many calls ---- */

/* Of a lead's page by qmtd_decode its result, its counts and all its visits, and how many were made. */
static struct held {
    uint8_t result[MOST_DATA], counts[QMTD_COUNTS_LEN];
    uint32_t visits, made;
} held[LEADS];

static void draw_page(void)
{
    static uint8_t data[MOST_DATA];
    for (uint32_t i = 0; i < symbols(); i++)
        data[i] = (uint8_t)below(code->q);
    EXPECT(qmtd_encode(CODE, data, symbols(), PIECE(PAGE)) == QMTD_OK);
    /* None, a few, some percent, or every second symbol. */
    const uint32_t kind = below(4), n = page_len();
    const uint32_t replaced[] = {0, 1 + below(3), n / 16 + 1, n / 2};
    for (uint32_t left = replaced[kind]; left > 0; left--) {
        uint8_t *symbol = &at[PAGE][below(n)];
        *symbol = (uint8_t)((*symbol + 1 + below(code->q - 1)) % code->q);
    }
}

/* A load; where it is done, what qmtd_decode gives for the page is kept. */
static void load_some(uint32_t n)
{
    static uint8_t syndrome[QMTD_MAX_K], difference[MOST_DATA], margins[QMTD_MARGINS_LEN(MOST_DATA, 1)];
    const int is_free = leads[n].holds == QMTD_LEAD_FREE;
    draw_page();
    EXPECT(load(n) == (is_free ? QMTD_OK : QMTD_LEAD_NOT_FREE));
    if (!is_free)
        return;
    struct held *page = &held[n];
    EXPECT(qmtd_decode(CODE, PIECE(PAGE), PIECE(THRESHOLDS), page->result, symbols(), syndrome, code->k, difference,
                       symbols(), margins, QMTD_MARGINS_LEN(code->k, code->b), page->counts,
                       QMTD_COUNTS_LEN) == QMTD_OK);
    page->visits = qmtd_number(page->counts) * symbols();
    page->made = 0;
    EXPECT(leads[n].holds == QMTD_LEAD_DUE && leads[n].start == qmtd_number(page->counts + 8));
    EXPECT(memcmp(at[RESULTS] + n * symbols(), at[PAGE], symbols()) == 0);
}

/* A run; each lead must have had its visits in turn. */
static void run_some(uint32_t budget)
{
    uint32_t last = at[LAST][0], made = 0, turns = 0;
    EXPECT(run(budget) == QMTD_OK);
    /* Round by lead number; 32 leads in a row without work due end it. */
    for (uint32_t n = last; made < budget && turns < LEADS;) {
        n = (n + 1) % LEADS;
        turns++;
        if (held[n].made < held[n].visits) {
            held[n].made++;
            made++;
            last = n;
            turns = 0;
        }
    }
    EXPECT(qmtd_number(at[MADE]) == made && at[LAST][0] == last);
    for (uint32_t n = 0; n < LEADS; n++) {
        const uint32_t held_by = held[n].made == held[n].visits ? QMTD_LEAD_FINISHED : QMTD_LEAD_DUE;
        EXPECT(leads[n].holds == (held[n].visits == 0 ? QMTD_LEAD_FREE : held_by));
        EXPECT(leads[n].passes * symbols() + leads[n].symbol == held[n].made);
    }
}

/* A taking; a page must be as qmtd_decode gives it. */
static void take_some(uint32_t n)
{
    static uint8_t parts[LEADS * MOST_DATA];
    const int finished = leads[n].holds == QMTD_LEAD_FINISHED;
    memcpy(parts, at[RESULTS], len[RESULTS]);
    memset(at[RESULT], FILL, len[RESULT]);
    memset(at[COUNTS], FILL, len[COUNTS]);
    EXPECT(take(n) == (finished ? QMTD_OK : QMTD_LEAD_NOT_FINISHED));
    EXPECT(memcmp(parts, at[RESULTS], len[RESULTS]) == 0);
    if (finished) {
        EXPECT(memcmp(at[RESULT], held[n].result, symbols()) == 0);
        EXPECT(memcmp(at[COUNTS], held[n].counts, QMTD_COUNTS_LEN) == 0);
        EXPECT(all(&leads[n], sizeof leads[n], 0));
        held[n].visits = held[n].made = 0;
    } else {
        EXPECT(all(at[RESULT], len[RESULT], FILL) && all(at[COUNTS], len[COUNTS], FILL));
    }
}

/* A call that is refused leaves all as it was. */
static void refused(uint32_t n)
{
    uint8_t *const thresholds = at[THRESHOLDS];
    switch (below(4)) {
    case 0:
        EXPECT(load(LEADS + n) == QMTD_BAD_LEAD && take(LEADS + n) == QMTD_BAD_LEAD);
        break;
    case 1:
        thresholds[0] = 33;
        EXPECT(load(n) == QMTD_BAD_THRESHOLD && run(n) == QMTD_BAD_THRESHOLD && take(n) == QMTD_BAD_THRESHOLD);
        thresholds[0] = code->thresholds[0];
        break;
    case 2:
        len[DIFFERENCES]--;
        EXPECT(load(n) == QMTD_BAD_LENGTH && run(n) == QMTD_BAD_LENGTH && take(n) == QMTD_BAD_LENGTH);
        len[DIFFERENCES]++;
        break;
    default:
        len[PAGE]--;
        EXPECT(load(n) == QMTD_BAD_LENGTH);
        len[PAGE]++;
    }
}

static uint32_t some_budget(void)
{
    static const uint32_t budgets[] = {0, 1, 31, 32, 33, 0xFFFFFFFF};
    const uint32_t kind = below(12);
    return kind < 6 ? budgets[kind] : below(40 * symbols());
}

static void many_calls(const struct code *of, size_t shift)
{
    prepare(of, shift);
    memset(held, 0, sizeof held);
    unsigned long taken = 0;
    for (int i = 0; i < of->calls; i++) {
        const uint32_t n = below(LEADS);
        /* For some hundred calls few pages are taken away. */
        const uint32_t kind = below(i / 200 % 3 == 1 ? 55 : 100);
        if (kind < 30) {
            load_some(n);
        } else if (kind < 50) {
            run_some(some_budget());
        } else if (kind < 92) {
            taken += leads[n].holds == QMTD_LEAD_FINISHED;
            take_some(n);
        } else {
            refused(n);
        }
    }
    run_some(HUGE_NUMBER);
    for (uint32_t n = 0; n < LEADS; n++)
        take_some(n);
    EXPECT(guarded() && taken > 0);
}

/* All 32 leads due: one budget leaves what many small ones leave. */
static void in_small_budgets(void)
{
    static struct copy whole;
    prepare(&codes[3], 0);
    for (uint32_t n = 0; n < LEADS; n++) {
        draw_page();
        EXPECT(load(n) == QMTD_OK);
    }
    keep(&before);
    EXPECT(run(3000) == QMTD_OK && qmtd_number(at[MADE]) > 1600);
    keep(&whole);
    uint32_t left = qmtd_number(at[MADE]);
    put_back(&before);
    for (uint32_t step = 0; left > 0; step = (step + 1) % 70) {
        const uint32_t budget = step < left ? step : left;
        EXPECT(run(budget) == QMTD_OK && qmtd_number(at[MADE]) == budget);
        left -= budget;
    }
    memcpy(at[MADE], whole.pieces[MADE], QMTD_RACK_MADE_LEN);
    EXPECT(same(&whole));
}

int main(void)
{
    every_length();
    null_with_length_0();
    limits_of_records();
    symbols_of_parts();
    numbers_of_leads();
    in_small_budgets();
    for (size_t c = 0; c < sizeof codes / sizeof codes[0]; c++)
        many_calls(&codes[c], 0);
    /* Every piece but the records at every distance from an aligned address. */
    struct code short_run = codes[3];
    short_run.calls = 120;
    for (size_t shift = 1; shift <= 16; shift++)
        many_calls(&short_run, shift);
    if (failures > 0)
        printf("%d failures\n", failures);
    return failures > 0;
}
