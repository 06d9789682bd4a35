/* files.c - a bench keeps the pages that it received: three pages of three packs are written into a file, read back, and
 * decoded each; then two files that are refused, one with a symbol that no page of its alphabet has, one cut short.
 *
 * files.expected, what it must print, is made by the reference program (tests/reference/examples.py).
 * Build: cc -std=c99 -Iinclude examples/files.c build/x86-64/libqmtd.a */
#include "qmtd_file.h"

#include <stdio.h>
#include <string.h>

/* One branch of 13 data symbols. J is 4, the smallest threshold 0: the bound is 2 replaced symbols. */
enum { K = 13, B = 1, J = 4, PAGE = QMTD_PAGE_LEN(K, B), PAGES = 3 };
static const uint8_t table[QMTD_TABLE_LEN(B, J)] = {QMTD_POSITION(0), QMTD_POSITION(1),
                                                    QMTD_POSITION(4), QMTD_POSITION(6)};
static const uint8_t thresholds[] = {0, 0, 0};

/* What each pack sends: its allowed charging currents in ampere at -20, -15, .. 40 degrees, at an alphabet size of its
 * own. A page's number is its pack's. */
static const struct pack {
    uint32_t number, q;
    uint8_t allowed[K];
} packs[PAGES] = {{3, 256, {0, 0, 4, 8, 16, 24, 32, 40, 40, 32, 24, 8, 0}},
                  {7, 64, {0, 2, 6, 12, 20, 30, 48, 63, 60, 45, 30, 12, 0}},
                  {300, 41, {0, 0, 0, 5, 10, 20, 30, 40, 40, 40, 20, 0, 0}}};

/* The pages received, one after the other, and the lists for the writer. */
static uint8_t received[PAGES * PAGE], numbers[2 * PAGES], tops[PAGES], lengths[4 * PAGES];
static uint8_t file[QMTD_FILE_LEN(PAGES, PAGES * PAGE)], length[QMTD_FILE_LENGTH_LEN], entry[QMTD_FILE_ENTRY_LEN];

/* Receives the page of a pack: the lead adds 5 to a data symbol and to a check symbol, modulo q. */
static int receive(int i)
{
    uint8_t *page = received + i * PAGE;
    const uint32_t q = packs[i].q;
    if (qmtd_encode(q, K, B, table, sizeof table, packs[i].allowed, K, page, PAGE) != QMTD_OK)
        return 0;
    page[3 + i] = (uint8_t)((page[3 + i] + 5) % q);
    page[K + 9] = (uint8_t)((page[K + 9] + 5) % q);
    numbers[2 * i] = (uint8_t)(packs[i].number % 256);
    numbers[2 * i + 1] = (uint8_t)(packs[i].number / 256);
    tops[i] = (uint8_t)(q - 1);
    lengths[4 * i] = PAGE;
    return 1;
}

/* Decodes the page at a place of the file, which is only read. */
static int decode(uint32_t place)
{
    static uint8_t result[K], syndrome[K], difference[K], margins[QMTD_MARGINS_LEN(K, B)], counts[QMTD_COUNTS_LEN];
    if (qmtd_file_read(file, sizeof file, place, entry, sizeof entry) != QMTD_OK)
        return 0;
    const uint32_t number = qmtd_number(entry), q = qmtd_number(entry + 4) + 1;
    const uint32_t offset = qmtd_number(entry + 8), symbols = qmtd_number(entry + 12);
    if (qmtd_decode(q, K, B, table, sizeof table, file + offset, symbols, thresholds, sizeof thresholds, result, K,
                    syndrome, K, difference, K, margins, sizeof margins, counts, sizeof counts) != QMTD_OK)
        return 0;
    printf("  place %u: page %3u, q %3u, %u symbols at %3u: changes %u, distance %u at the start, %u at the end, %s\n",
           (unsigned)place, (unsigned)number, (unsigned)q, (unsigned)symbols, (unsigned)offset,
           (unsigned)qmtd_number(counts + 4), (unsigned)qmtd_number(counts + 8), (unsigned)qmtd_number(counts + 12),
           memcmp(result, packs[place].allowed, K) == 0 ? "as sent" : "NOT as sent");
    return 1;
}

int main(void)
{
    for (int i = 0; i < PAGES; i++)
        if (!receive(i))
            return 1;

    if (qmtd_file_write(numbers, sizeof numbers, tops, sizeof tops, lengths, sizeof lengths, received, sizeof received,
                        file, sizeof file, length, sizeof length) != QMTD_OK)
        return 1;
    printf("The bench keeps %d pages, as received, in a file of %u bytes. Read back and decoded:\n", PAGES,
           (unsigned)qmtd_number(length));
    for (uint32_t place = 0; place < PAGES; place++)
        if (!decode(place))
            return 1;

    file[sizeof file - 1] = 41;
    printf("\nThe last symbol becomes 41, at q = 41. Asked for the first page:\n  refused with %u\n",
           (unsigned)qmtd_file_read(file, sizeof file, 0, entry, sizeof entry));
    printf("The last byte is lost:\n  refused with %u\n",
           (unsigned)qmtd_file_read(file, sizeof file - 1, 0, entry, sizeof entry));
    printf("A file says that it is whole, not that its pages are right: that is for decode and its bound.\n");
    return 0;
}
