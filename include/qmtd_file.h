/* qmtd_file.h - a file of pages with its contents first, for keeping pages that were received.
 *
 * The file holds up to 64 pages of symbols, with their page numbers and alphabet sizes, in at most 65,536 bytes. It says
 * nothing of codes: k, b and the table of a page are for the caller to know. All numbers are low byte first:
 *
 *   offset          bytes
 *   0               2      count of pages, 1 to 64
 *   2 + 11 * place  11     an entry for each page, places from 0 up: page number (2 bytes), q - 1 (1), offset of the body
 *                          from the file's start (4), length of the body (4)
 *   2 + 11 * count  ..     the bodies, one byte a symbol, in the order of the entries, to the file's end
 *
 * Page numbers are strictly ascending; q - 1 is from 2 to 255, a length from 2 to 8,192; each body starts where the one
 * before it ends, the first where the contents end; no symbol is above its page's q - 1; the last body ends the file. A
 * file that keeps all of this is accepted, and no other.
 *
 * What the reader accepts is exactly what the writer can write. Each place of a written file reads back as the page
 * number, q - 1 and body that were listed there, and of two different listings no file is the same. The bytes of a damaged
 * file may still keep all rules: a file has no checksum.
 *
 * The rules for all calls and what is said of the archive are those of qmtd.h, and so are its macros, but for these:
 *   - Refusals are tested in the order 6, 13, 14, 15.
 *   - The output of qmtd_file_write need not be written whole: what is beyond the file is left as it was.
 *   - Null: a pointer may be null where its length is 0; all such calls are refused.
 *   - Stack: allow 1 KiB.
 */
#ifndef QMTD_FILE_H
#define QMTD_FILE_H

#include "qmtd.h"

#ifdef __cplusplus
extern "C" {
#endif

/* ---- Returned numbers, beside QMTD_OK (0) and QMTD_BAD_LENGTH (6) ---- */

#define QMTD_BAD_CONTENTS 13 /* file too long, count not 1 to 64, or contents cut short */
#define QMTD_BAD_ENTRY 14    /* an entry breaks a rule, a body passes the file's end, or no page has this place */
#define QMTD_BAD_BODY 15     /* bytes after the last body, or a symbol above its page's q - 1 */

/* ---- Sizes ---- */

#define QMTD_FILE_MAX_PAGES 64
#define QMTD_FILE_MAX_LEN 65536
#define QMTD_FILE_MAX_PAGE 8192  /* symbols of a page in a file; at least 2 */
#define QMTD_FILE_ENTRY_LEN 16   /* what qmtd_file_read writes */
#define QMTD_FILE_LENGTH_LEN 4   /* the file's length, which qmtd_file_write writes */

/* The length of a file of so many pages, whose bodies have so many bytes together. */
#define QMTD_FILE_LEN(pages, bodies_len) (2 + 11 * (pages) + (bodies_len))

/* The two bytes of a page number and the four of a length, low byte first, for lists: {QMTD_FILE_NUMBER(3),
 * QMTD_FILE_NUMBER(300)} is four bytes. n is a constant. */
#define QMTD_FILE_NUMBER(n) ((n) & 0xff), ((n) >> 8 & 0xff)
#define QMTD_FILE_LENGTH(n) ((n) & 0xff), ((n) >> 8 & 0xff), ((n) >> 16 & 0xff), ((n) >> 24 & 0xff)

/* Finds a page by its place in the contents, from 0. Writes 16 bytes: page number, q - 1, offset of the body from the
 * file's start, length of the body, four bytes each (qmtd_number reads them). The body is the `length` bytes from
 * file + offset on, which lie inside the file.
 *   6   entry is not 16 bytes long
 *   13  file has more than 65,536 bytes, its count is not 1 to 64, or it ends within the contents
 *   14  an entry of any page breaks a rule or its body passes the file's end, or place is not below the count
 *   15  there are bytes after the last body, or a symbol of any page is above its q - 1
 * The whole file is tested with each call, which takes one pass over its bytes. */
QMTD_MUST_USE
uint32_t qmtd_file_read(const uint8_t *file, uint64_t file_len,
                        uint32_t place,
                        uint8_t *entry, uint64_t entry_len);

/* Writes a file of tops_len pages. numbers has the page numbers, 2 bytes each, tops the q - 1 of each page, 1 byte each,
 * lengths the lengths of the bodies, 4 bytes each, and bodies the bodies, one after the other. Fills the front of output
 * with the file, leaves the rest of it, and writes the file's length into the 4 bytes of length.
 *   6   numbers_len is not 2 * tops_len, lengths_len is not 4 * tops_len, length is not 4 bytes long, the lengths do not
 *       sum to bodies_len, or output is shorter than the file, QMTD_FILE_LEN(tops_len, bodies_len)
 *   13  the file would have more than 65,536 bytes, or tops_len is not 1 to 64
 *   14  page numbers are not strictly ascending, q - 1 is not 2 to 255, or a length is not 2 to 8,192
 *   15  a symbol is above its page's q - 1 */
QMTD_MUST_USE
uint32_t qmtd_file_write(const uint8_t *numbers, uint64_t numbers_len,
                         const uint8_t *tops, uint64_t tops_len,
                         const uint8_t *lengths, uint64_t lengths_len,
                         const uint8_t *bodies, uint64_t bodies_len,
                         uint8_t *output, uint64_t output_len,
                         uint8_t *length, uint64_t length_len);

#ifdef __cplusplus
}
#endif

#endif /* QMTD_FILE_H */
