/* pages.c - runs the reference pages through the archive:  pages STRIDE FILE..
 *
 * tests/reference/README.md has the format of the files. Every STRIDE-th page of a group is run, from the first on.
 * Each page runs twice: with guard bytes on both sides of every piece of lent memory, and with none, each piece a heap
 * block of exactly its length (null where that is 0), so that valgrind or a sanitizer sees any access outside.
 * Memory whose content the page does not give holds another pattern each time: no written byte can pass for an unwritten
 * one in both. The pages of decode run twice more with counters, which must change nothing. */
#include "qmtd.h"
#include "qmtd_bits.h"
#include "qmtd_wide.h"
#include "qmtd_file.h"

#include <stdio.h>
#include <stdlib.h>
#include <string.h>

enum { MAX_RECORD = 204800, MAX_NUMBERS = 8, MAX_PIECES = 10, GUARD_LEN = 64, GUARD = 0xC3 };
enum { GIVES_BEFORE = 1, GIVES_AFTER = 2 };

/* One piece of lent memory: what it holds before the call and must hold after it, null where the page does not say. */
struct piece {
    size_t len;
    const uint8_t *before, *after;
    uint8_t *block, *at;
};

#define LENT(piece) (piece).at, (piece).len

static uint32_t check_table(const uint32_t *n, const struct piece *p)
{
    return qmtd_check_table(n[0], n[1], n[2], LENT(p[0]));
}

static uint32_t encode(const uint32_t *n, const struct piece *p)
{
    return qmtd_encode(n[0], n[1], n[2], LENT(p[0]), LENT(p[1]), LENT(p[2]));
}

static uint32_t syndrome(const uint32_t *n, const struct piece *p)
{
    return qmtd_syndrome(n[0], n[1], n[2], LENT(p[0]), LENT(p[1]), LENT(p[2]));
}

static uint32_t decode(const uint32_t *n, const struct piece *p)
{
    return qmtd_decode(n[0], n[1], n[2], LENT(p[0]), LENT(p[1]), LENT(p[2]), LENT(p[3]), LENT(p[4]), LENT(p[5]),
                       LENT(p[6]), LENT(p[7]));
}

static uint32_t open_page(const uint32_t *n, const struct piece *p)
{
    return qmtd_open(n[0], n[1], n[2], LENT(p[0]), LENT(p[1]), LENT(p[2]), LENT(p[3]), LENT(p[4]));
}

static uint32_t pass(const uint32_t *n, const struct piece *p)
{
    return qmtd_pass(n[0], n[1], n[2], LENT(p[0]), n[3], LENT(p[1]), LENT(p[2]), LENT(p[3]), LENT(p[4]));
}

static uint32_t explain(const uint32_t *n, const struct piece *p)
{
    return qmtd_explain(n[0], n[1], n[2], LENT(p[0]), n[3], n[4], LENT(p[1]), LENT(p[2]), LENT(p[3]), LENT(p[4]));
}

static uint32_t decode_counters(const uint32_t *n, const struct piece *p)
{
    return qmtd_decode_counters(n[0], n[1], n[2], LENT(p[0]), LENT(p[1]), LENT(p[2]), LENT(p[3]), LENT(p[4]),
                                LENT(p[5]), LENT(p[6]), LENT(p[7]), LENT(p[8]));
}

static uint32_t encode_outer(const uint32_t *n, const struct piece *p)
{
    return qmtd_encode_outer(n[0], n[1], n[2], LENT(p[0]), n[3], LENT(p[1]), LENT(p[2]));
}

static uint32_t decode_outer(const uint32_t *n, const struct piece *p)
{
    return qmtd_decode_outer(n[0], n[1], n[2], LENT(p[0]), n[3], LENT(p[1]), LENT(p[2]), LENT(p[3]), LENT(p[4]),
                             LENT(p[5]), LENT(p[6]), LENT(p[7]));
}

static uint32_t bits_check_table(const uint32_t *n, const struct piece *p)
{
    return qmtd_bits_check_table(n[0], n[1], n[2], LENT(p[0]));
}

static uint32_t bits_encode(const uint32_t *n, const struct piece *p)
{
    return qmtd_bits_encode(n[0], n[1], n[2], LENT(p[0]), LENT(p[1]), LENT(p[2]));
}

static uint32_t bits_syndrome(const uint32_t *n, const struct piece *p)
{
    return qmtd_bits_syndrome(n[0], n[1], n[2], LENT(p[0]), LENT(p[1]), LENT(p[2]));
}

static uint32_t bits_decode(const uint32_t *n, const struct piece *p)
{
    return qmtd_bits_decode(n[0], n[1], n[2], LENT(p[0]), LENT(p[1]), LENT(p[2]), LENT(p[3]), LENT(p[4]), LENT(p[5]),
                            LENT(p[6]), LENT(p[7]));
}

static uint32_t bits_open(const uint32_t *n, const struct piece *p)
{
    return qmtd_bits_open(n[0], n[1], n[2], LENT(p[0]), LENT(p[1]), LENT(p[2]), LENT(p[3]), LENT(p[4]));
}

static uint32_t bits_pass(const uint32_t *n, const struct piece *p)
{
    return qmtd_bits_pass(n[0], n[1], n[2], LENT(p[0]), n[3], LENT(p[1]), LENT(p[2]), LENT(p[3]), LENT(p[4]));
}

static uint32_t bits_explain(const uint32_t *n, const struct piece *p)
{
    return qmtd_bits_explain(n[0], n[1], n[2], LENT(p[0]), n[3], n[4], LENT(p[1]), LENT(p[2]), LENT(p[3]), LENT(p[4]));
}

/* The calls on symbols of one width. */
#define WIDE_CALLS(width)                                                                                              \
    static uint32_t width##_check_table(const uint32_t *n, const struct piece *p)                                      \
    {                                                                                                                  \
        return qmtd_##width##_check_table(n[0], n[1], LENT(p[0]));                                                     \
    }                                                                                                                  \
    static uint32_t width##_encode(const uint32_t *n, const struct piece *p)                                           \
    {                                                                                                                  \
        return qmtd_##width##_encode(n[0], n[1], LENT(p[0]), LENT(p[1]), LENT(p[2]));                                  \
    }                                                                                                                  \
    static uint32_t width##_syndrome(const uint32_t *n, const struct piece *p)                                         \
    {                                                                                                                  \
        return qmtd_##width##_syndrome(n[0], n[1], LENT(p[0]), LENT(p[1]), LENT(p[2]));                                \
    }                                                                                                                  \
    static uint32_t width##_decode(const uint32_t *n, const struct piece *p)                                           \
    {                                                                                                                  \
        return qmtd_##width##_decode(n[0], n[1], LENT(p[0]), LENT(p[1]), LENT(p[2]), LENT(p[3]), LENT(p[4]),           \
                                     LENT(p[5]), LENT(p[6]), LENT(p[7]));                                              \
    }                                                                                                                  \
    static uint32_t width##_open(const uint32_t *n, const struct piece *p)                                             \
    {                                                                                                                  \
        return qmtd_##width##_open(n[0], n[1], LENT(p[0]), LENT(p[1]), LENT(p[2]), LENT(p[3]), LENT(p[4]));            \
    }                                                                                                                  \
    static uint32_t width##_pass(const uint32_t *n, const struct piece *p)                                             \
    {                                                                                                                  \
        return qmtd_##width##_pass(n[0], n[1], LENT(p[0]), n[2], LENT(p[1]), LENT(p[2]), LENT(p[3]), LENT(p[4]));      \
    }                                                                                                                  \
    static uint32_t width##_explain(const uint32_t *n, const struct piece *p)                                          \
    {                                                                                                                  \
        return qmtd_##width##_explain(n[0], n[1], LENT(p[0]), n[2], n[3], LENT(p[1]), LENT(p[2]), LENT(p[3]),          \
                                      LENT(p[4]));                                                                     \
    }

WIDE_CALLS(u16)
WIDE_CALLS(u32)

/* Their entries below. */
#define WIDE_ENTRIES(width)                                                                                            \
    {#width "_check_table", 2, {"table"}, width##_check_table},                                                        \
    {#width "_encode", 2, {"table", "data", "page"}, width##_encode},                                                  \
    {#width "_syndrome", 2, {"table", "page", "syndrome"}, width##_syndrome},                                          \
    {#width "_decode", 2, {"table", "page", "thresholds", "result", "syndrome", "difference", "margins", "counts"},    \
     width##_decode},                                                                                                  \
    {#width "_open", 2, {"table", "page", "result", "syndrome", "difference"}, width##_open},                          \
    {#width "_pass", 3, {"table", "result", "syndrome", "difference", "changes"}, width##_pass},                       \
    {#width "_explain", 4, {"table", "result", "syndrome", "difference", "answer"}, width##_explain}

static uint32_t file_read(const uint32_t *n, const struct piece *p)
{
    return qmtd_file_read(LENT(p[0]), n[0], LENT(p[1]));
}

static uint32_t file_write(const uint32_t *n, const struct piece *p)
{
    (void)n;
    return qmtd_file_write(LENT(p[0]), LENT(p[1]), LENT(p[2]), LENT(p[3]), LENT(p[4]), LENT(p[5]));
}

/* The calls by their number in the file: name, how many numbers each takes, the names of its pieces, the call itself.
 * Number 0 is no call: it opens a group, whose name is the piece. */
static const struct call {
    const char *name;
    uint32_t numbers;
    const char *pieces[MAX_PIECES + 1];
    uint32_t (*make)(const uint32_t *numbers, const struct piece *pieces);
} calls[] = {
    {"", 1, {"name"}, NULL},
    {"check_table", 3, {"table"}, check_table},
    {"encode", 3, {"table", "data", "page"}, encode},
    {"syndrome", 3, {"table", "page", "syndrome"}, syndrome},
    {"decode", 3, {"table", "page", "thresholds", "result", "syndrome", "difference", "margins", "counts"}, decode},
    {"open", 3, {"table", "page", "result", "syndrome", "difference"}, open_page},
    {"pass", 4, {"table", "result", "syndrome", "difference", "changes"}, pass},
    {"explain", 5, {"table", "result", "syndrome", "difference", "answer"}, explain},
    {"decode_counters", 3, {"table", "page", "thresholds", "result", "syndrome", "difference", "margins", "counters",
                            "counts"}, decode_counters},
    {"encode_outer", 4, {"table", "data", "page"}, encode_outer},
    {"decode_outer", 4, {"table", "page", "thresholds", "result", "syndrome", "difference", "margins", "counts"},
     decode_outer},
    {"bits_check_table", 3, {"table"}, bits_check_table},
    {"bits_encode", 3, {"table", "data", "page"}, bits_encode},
    {"bits_syndrome", 3, {"table", "page", "syndrome"}, bits_syndrome},
    {"bits_decode", 3, {"table", "page", "thresholds", "result", "syndrome", "difference", "margins", "counts"},
     bits_decode},
    {"bits_open", 3, {"table", "page", "result", "syndrome", "difference"}, bits_open},
    {"bits_pass", 4, {"table", "result", "syndrome", "difference", "changes"}, bits_pass},
    {"bits_explain", 5, {"table", "result", "syndrome", "difference", "answer"}, bits_explain},
    WIDE_ENTRIES(u16),
    WIDE_ENTRIES(u32),
    {"file_read", 1, {"file", "entry"}, file_read},
    {"file_write", 0, {"numbers", "tops", "lengths", "bodies", "output", "length"}, file_write},
};
enum { OPEN_GROUP = 0, DECODE = 4, DECODE_COUNTERS = 8, CALLS = sizeof calls / sizeof calls[0] };

struct record {
    const struct call *call;
    uint32_t number, numbers[MAX_NUMBERS];
    size_t piece_count;
    struct piece pieces[MAX_PIECES];
};

/* What is left to read of a record; `bad` once it was not enough. */
struct reader {
    const uint8_t *next;
    size_t left;
    int bad;
};

static const uint8_t *take(struct reader *reader, size_t len)
{
    const uint8_t *taken = reader->next;
    if (len > reader->left) {
        reader->bad = 1;
        return NULL;
    }
    reader->next += len;
    reader->left -= len;
    return taken;
}

static uint32_t take_number(struct reader *reader)
{
    const uint8_t *b = take(reader, 4);
    return b == NULL ? 0 : qmtd_number(b);
}

static void take_piece(struct reader *reader, struct piece *piece)
{
    piece->len = take_number(reader);
    uint32_t gives = take_number(reader);
    reader->bad |= gives > (GIVES_BEFORE | GIVES_AFTER);
    piece->before = gives & GIVES_BEFORE ? take(reader, piece->len) : NULL;
    piece->after = gives & GIVES_AFTER ? take(reader, piece->len) : NULL;
}

/* Takes a record of this length from the file, kept until the next one. Is it one, of a call that is known here? */
static int take_record(FILE *file, size_t len, struct record *record)
{
    static uint8_t bytes[MAX_RECORD];
    if (len > sizeof bytes || fread(bytes, 1, len, file) != len)
        return 0;
    struct reader reader = {bytes, len, 0};
    uint32_t call = take_number(&reader);
    if (reader.bad || call >= CALLS || calls[call].name == NULL)
        return 0;
    *record = (struct record){.call = &calls[call], .number = take_number(&reader)};
    while (record->call->pieces[record->piece_count] != NULL)
        record->piece_count++;
    if (take_number(&reader) != record->call->numbers || take_number(&reader) != record->piece_count)
        return 0;
    for (uint32_t i = 0; i < record->call->numbers; i++)
        record->numbers[i] = take_number(&reader);
    for (size_t i = 0; i < record->piece_count; i++)
        take_piece(&reader, &record->pieces[i]);
    int named = call != OPEN_GROUP || record->pieces[0].before != NULL;
    return named && !reader.bad && reader.left == 0;
}

/* What a piece holds in a run where the page does not say. */
static uint8_t fill(int run, size_t i)
{
    uint8_t byte = (uint8_t)(0xA5 + 29 * i);
    return run == 0 ? byte : (uint8_t)~byte;
}

static void lend(struct piece *piece, int run, size_t guard)
{
    size_t size = piece->len + 2 * guard;
    piece->block = piece->at = NULL;
    if (size == 0)
        return;
    piece->block = malloc(size);
    if (piece->block == NULL)
        abort();
    memset(piece->block, GUARD, size);
    piece->at = piece->block + guard;
    for (size_t i = 0; i < piece->len; i++)
        piece->at[i] = piece->before != NULL ? piece->before[i] : fill(run, i);
}

/* Is the piece, and what is around it, as it must be after the call? If not, says what is wrong. */
static int inspect(const struct piece *piece, int run, size_t guard, const char *where, const char *name)
{
    const uint8_t *due = piece->after != NULL ? piece->after : piece->before;
    for (size_t i = 0; i < guard; i++)
        if (piece->block[i] != GUARD || piece->at[piece->len + i] != GUARD) {
            printf("%s: wrote outside %s\n", where, name);
            return 0;
        }
    for (size_t i = 0; i < piece->len; i++) {
        uint8_t expected = due != NULL ? due[i] : fill(run, i);
        if (piece->at[i] != expected) {
            printf("%s: %s holds %u at %lu, not %u\n", where, name, piece->at[i], (unsigned long)i, expected);
            return 0;
        }
    }
    return 1;
}

/* Runs the record once. Was all as expected? */
static int run_once(struct record *record, const char *where, int run, size_t guard)
{
    for (size_t i = 0; i < record->piece_count; i++)
        lend(&record->pieces[i], run, guard);

    uint32_t number = record->call->make(record->numbers, record->pieces);

    int right = number == record->number;
    if (!right)
        printf("%s: returned %lu, not %lu\n", where, (unsigned long)number, (unsigned long)record->number);
    for (size_t i = 0; i < record->piece_count; i++) {
        right &= inspect(&record->pieces[i], run, guard, where, record->call->pieces[i]);
        free(record->pieces[i].block);
    }
    return right;
}

struct group {
    char name[64];
    unsigned long pages, run, wrong;
};

static void open_group(struct group *group, const struct piece *name)
{
    *group = (struct group){.pages = 0};
    memcpy(group->name, name->before, name->len < sizeof group->name ? name->len : sizeof group->name - 1);
}

static void close_group(const struct group *group, struct group *all)
{
    if (group->pages == 0)
        return;
    printf("%-36s %3lu pages, %lu wrong\n", group->name, group->run, group->wrong);
    all->run += group->run;
    all->wrong += group->wrong;
}

/* Runs the record in both ways. Was all as expected? */
static int run_twice(const struct group *group, struct record *record)
{
    char where[128];
    snprintf(where, sizeof where, "%s, page %lu, %s", group->name, group->pages, record->call->name);
    int guarded = run_once(record, where, 0, GUARD_LEN);
    int exact = run_once(record, where, 1, 0);
    return guarded && exact;
}

/* The record of a decode as one with counters, which are all 0 and stand before the counts, its last piece. */
static struct record with_counters(const struct record *decode)
{
    static const uint8_t zeros[QMTD_COUNTERS_LEN];
    struct record record = *decode;
    record.call = &calls[DECODE_COUNTERS];
    record.pieces[record.piece_count] = record.pieces[record.piece_count - 1];
    record.pieces[record.piece_count - 1] = (struct piece){.len = sizeof zeros, .before = zeros};
    record.piece_count++;
    return record;
}

static void run_page(struct group *group, struct record *record)
{
    int right = run_twice(group, record);
    if (record->call == &calls[DECODE]) {
        struct record counted = with_counters(record);
        right &= run_twice(group, &counted);
    }
    group->wrong += !right;
    group->run++;
}

/* Runs the pages of a file, and adds them to all. Could every record of it be read? */
static int run_file(const char *name, unsigned long stride, struct group *all)
{
    FILE *file = fopen(name, "rb");
    if (file == NULL) {
        printf("%s: cannot be opened\n", name);
        return 0;
    }
    struct group group = {.pages = 0};
    uint8_t bytes[4];
    size_t read;
    while ((read = fread(bytes, 1, sizeof bytes, file)) > 0) {
        struct reader length = {bytes, read, 0};
        struct record record;
        if (!take_record(file, take_number(&length), &record)) {
            printf("%s: the record after page %lu is malformed, or of a call that is not known here\n",
                   group.name, group.pages);
            return 0;
        }
        if (record.call == &calls[OPEN_GROUP]) {
            close_group(&group, all);
            open_group(&group, &record.pieces[0]);
        } else if (group.pages++ % stride == 0) {
            run_page(&group, &record);
        }
    }
    close_group(&group, all);
    fclose(file);
    return 1;
}

int main(int argc, char **argv)
{
    unsigned long stride = argc > 2 ? strtoul(argv[1], NULL, 10) : 0;
    if (stride == 0) {
        fprintf(stderr, "pages STRIDE FILE..\n");
        return 2;
    }
    setvbuf(stdout, NULL, _IONBF, 0); /* what was found is shown even if the archive crashes the program */

    struct group all = {.pages = 0};
    for (int i = 2; i < argc; i++)
        if (!run_file(argv[i], stride, &all))
            return 1;
    printf("%lu pages, %lu wrong\n", all.run, all.wrong);
    return all.wrong == 0 && all.run > 0 ? 0 : 1;
}
