/* files.c - makes the calls on files of pages that bench/count --files counts: each row is a file, which is written and
 * whose last page is then read.
 *   files --count */
#include "qmtd_file.h"

#include <stdio.h>
#include <string.h>

/* Pages of so many symbols, all 0, each with this q - 1. */
static const struct row {
    uint32_t pages, symbols;
    uint8_t top;
} rows[] = {{64, 1000, 250}, {7, 8192, 250}, {64, 1000, 255}, {8, 100, 250}, {64, 2, 2}, {1, 2, 2}};

static uint8_t numbers[2 * QMTD_FILE_MAX_PAGES], tops[QMTD_FILE_MAX_PAGES], lengths[4 * QMTD_FILE_MAX_PAGES];
static uint8_t bodies[QMTD_FILE_MAX_LEN], file[QMTD_FILE_MAX_LEN], length[QMTD_FILE_LENGTH_LEN], entry[QMTD_FILE_ENTRY_LEN];

enum call { READ, WRITE, CALLS };
static const char *const call_names[] = {"read", "write"};

/* bench/count collects the instructions inside this function, by its name: it has no copies under another one. */
__attribute__((noinline, noclone)) uint32_t counted_call(enum call, const struct row *);

uint32_t counted_call(enum call call, const struct row *row)
{
    const uint64_t n = row->pages, len = n * row->symbols;
    return call == WRITE ? qmtd_file_write(numbers, 2 * n, tops, n, lengths, 4 * n, bodies, len, file, sizeof file,
                                           length, sizeof length)
                         : qmtd_file_read(file, QMTD_FILE_LEN(n, len), row->pages - 1, entry, sizeof entry);
}

int main(int argc, char **argv)
{
    if (argc != 2 || strcmp(argv[1], "--count") != 0) {
        fprintf(stderr, "files --count\n");
        return 2;
    }
    for (unsigned i = 0; i < sizeof rows / sizeof rows[0]; i++) {
        const struct row *row = &rows[i];
        for (uint32_t page = 0; page < row->pages; page++) {
            const uint8_t number[] = {QMTD_FILE_NUMBER(page)}, size[] = {QMTD_FILE_LENGTH(row->symbols)};
            memcpy(numbers + 2 * page, number, sizeof number);
            memcpy(lengths + 4 * page, size, sizeof size);
            tops[page] = row->top;
        }
        for (enum call call = CALLS; call-- > READ;) {
            if (counted_call(call, row) != QMTD_OK)
                return 1;
            printf("%u\t%s\t%u of %u, q - 1 = %u\n", (unsigned)QMTD_FILE_LEN(row->pages, row->pages * row->symbols),
                   call_names[call], (unsigned)row->pages, (unsigned)row->symbols, (unsigned)row->top);
        }
    }
    return 0;
}
