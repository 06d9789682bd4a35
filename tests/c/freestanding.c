/* freestanding.c - all the calls in a program without a C library (x86-64 Linux). Exits 0, or with the number of the
 * step that went wrong. The one thing that the archive may ask for from outside, memset, is here. */
#include "qmtd.h"
#include "qmtd_bits.h"
#include "qmtd_wide.h"
#include "qmtd_file.h"

#include <stddef.h>

/* volatile, or the compiler might make the loop a call to memset. */
void *memset(void *to, int value, size_t len)
{
    volatile unsigned char *bytes = to;
    for (size_t i = 0; i < len; i++)
        bytes[i] = (unsigned char)value;
    return to;
}

/* Leaves with what run() returns. */
__asm__(".globl _start\n"
        "_start:\n"
        "    xor %ebp, %ebp\n"
        "    call run\n"
        "    mov %eax, %edi\n"
        "    mov $60, %eax\n"
        "    syscall\n");

enum { K = 13 };

/* Code A and cases 5 and 9 of document 01. */
static const uint8_t table[] = {0, 0, 1, 0, 4, 0, 6, 0};
static const uint8_t data[K] = {[0] = 10, [12] = 250};
static const uint8_t code_word[2 * K] = {
    [0] = 10, [12] = 250,
    [K + 0] = 4, [K + 1] = 10, [K + 4] = 10, [K + 6] = 10, [K + 3] = 250, [K + 5] = 250, [K + 12] = 250};
/* The same data in one block of K symbols, whose last is then such that the block sums to 0. */
static const uint8_t outer_word[2 * K] = {
    [0] = 10, [12] = 246,
    [K + 1] = 10, [K + 4] = 10, [K + 6] = 10, [K + 3] = 246, [K + 5] = 246, [K + 12] = 246};
static const uint8_t received[2 * K] = {7, 3};
static const uint8_t thresholds[] = {0, 0};
static const uint8_t expected_difference[K] = {249, 253};
static const uint8_t expected_counts[QMTD_COUNTS_LEN] = {[0] = 2, [4] = 2, [8] = 7, [12] = 2};
static const uint8_t expected_changes[QMTD_CHANGES_LEN] = {2};
/* Case 10: symbol 0 is changed, though it was right, and the outer step takes that back. */
static const uint8_t checks_received[2 * K] = {[K + 0] = 251, [K + 1] = 251, [K + 4] = 251};
static const uint8_t outer_syndrome[K] = {[0] = 5, [1] = 5, [4] = 5};
static const uint8_t outer_counts[QMTD_COUNTS_LEN] = {[0] = 2, [4] = 2, [8] = 3, [12] = 3};
/* Of symbol 0, whose estimates are 0, 7, 10, 7, 7. */
static const uint8_t expected_answer[QMTD_ANSWER_LEN] = {[0] = QMTD_GROUND_CHANGE, [4] = 7, [8] = 3, [12] = 1, [16] = 26};

/* Bit pages: the word of bits 0 and 12; then bits 0 and 1 received. The estimates of bit 0 are 0, 1, 0, 1, 1, and those of
 * bit 1, once bit 0 is changed, 0, 1, 1, 1, 1. */
static const uint8_t bit_data[K] = {[0] = 1, [12] = 1};
static const uint8_t bit_word[2 * K] = {
    [0] = 1, [12] = 1,
    [K + 1] = 1, [K + 4] = 1, [K + 6] = 1, [K + 3] = 1, [K + 5] = 1, [K + 12] = 1};
static const uint8_t bits_received[2 * K] = {1, 1};
static const uint8_t bit_difference[K] = {1, 1};
static const uint8_t bit_counts[QMTD_COUNTS_LEN] = {[0] = 2, [4] = 2, [8] = 6, [12] = 2};
static const uint8_t bit_answer[QMTD_ANSWER_LEN] = {[0] = QMTD_GROUND_CHANGE, [4] = 1, [8] = 3, [12] = 2, [16] = 26};

static uint8_t page[2 * K], result[K], syndrome[K], difference[K], margins[4 * K], counts[QMTD_COUNTS_LEN];
static uint8_t changes[QMTD_CHANGES_LEN], answer[QMTD_ANSWER_LEN], counters[QMTD_COUNTERS_LEN];

static int same(const uint8_t *a, const uint8_t *b, size_t len)
{
    for (size_t i = 0; i < len; i++)
        if (a[i] != b[i])
            return 0;
    return 1;
}

static uint32_t decode(uint32_t q)
{
    return qmtd_decode(q, K, 1, table, sizeof table, received, sizeof received, thresholds, sizeof thresholds,
                       result, K, syndrome, K, difference, K, margins, sizeof margins, counts, sizeof counts);
}

static uint32_t decode_counters(void)
{
    return qmtd_decode_counters(256, K, 1, table, sizeof table, received, sizeof received,
                                thresholds, sizeof thresholds, result, K, syndrome, K, difference, K,
                                margins, sizeof margins, counters, sizeof counters, counts, sizeof counts);
}

static uint32_t decode_outer(uint32_t block)
{
    return qmtd_decode_outer(256, K, 1, table, sizeof table, block, checks_received, sizeof checks_received,
                             thresholds, sizeof thresholds, result, K, syndrome, K, difference, K,
                             margins, sizeof margins, counts, sizeof counts);
}

static uint32_t pass(uint32_t threshold)
{
    return qmtd_pass(256, K, 1, table, sizeof table, threshold, result, K, syndrome, K, difference, K,
                     changes, sizeof changes);
}

static uint32_t explain(uint32_t symbol)
{
    return qmtd_explain(256, K, 1, table, sizeof table, 0, symbol, result, K, syndrome, K, difference, K,
                        answer, sizeof answer);
}

static uint32_t bits_decode(uint32_t q)
{
    return qmtd_bits_decode(q, K, 1, table, sizeof table, bits_received, sizeof bits_received,
                            thresholds, sizeof thresholds, result, K, syndrome, K, difference, K,
                            margins, sizeof margins, counts, sizeof counts);
}

static uint32_t bits_pass(uint32_t threshold)
{
    return qmtd_bits_pass(2, K, 1, table, sizeof table, threshold, result, K, syndrome, K, difference, K,
                          changes, sizeof changes);
}

static uint32_t bits_explain(uint32_t symbol)
{
    return qmtd_bits_explain(2, K, 1, table, sizeof table, 0, symbol, result, K, syndrome, K, difference, K,
                             answer, sizeof answer);
}

static const uint8_t zeros[QMTD_COUNTERS_LEN];

/* The answers of the decode: nothing but d(0) and d(1) is left that is not 0. */
static int decoded(void)
{
    for (int j = 0; j < K; j++)
        if (qmtd_margin(margins, (uint64_t)j) != (j < 2 ? 3 : 5))
            return 0;
    return same(result, zeros, K) && same(syndrome, zeros, K) && same(difference, expected_difference, K) &&
           same(counts, expected_counts, sizeof counts);
}

static int decoded_outer(void)
{
    return same(result, zeros, K) && same(syndrome, outer_syndrome, K) && same(difference, zeros, K) &&
           same(counts, outer_counts, sizeof counts) && qmtd_margin(margins, 0) == -1 && qmtd_margin(margins, 2) == 5;
}

static int bits_decoded(void)
{
    for (int j = 0; j < K; j++)
        if (qmtd_margin(margins, (uint64_t)j) != (j < 2 ? 3 : 5))
            return 0;
    return same(result, zeros, K) && same(syndrome, zeros, K) && same(difference, bit_difference, K) &&
           same(counts, bit_counts, sizeof counts);
}

/* The calls on bit pages. */
static int run_bits(void)
{
    if (qmtd_bits_check_table(2, K, 1, table, sizeof table) != QMTD_OK ||
        qmtd_bits_check_table(3, K, 1, table, sizeof table) != QMTD_BAD_Q)
        return 15;
    if (qmtd_bits_encode(2, K, 1, table, sizeof table, bit_data, K, page, sizeof page) != QMTD_OK ||
        !same(page, bit_word, sizeof page) ||
        qmtd_bits_encode(2, K, 1, table, sizeof table, data, K, page, sizeof page) != QMTD_BAD_SYMBOL ||
        !same(page, bit_word, sizeof page))
        return 16;
    if (qmtd_bits_syndrome(2, K, 1, table, sizeof table, page, sizeof page, syndrome, K) != QMTD_OK ||
        !same(syndrome, zeros, K))
        return 17;
    if (bits_decode(2) != QMTD_OK || !bits_decoded() || bits_decode(256) != QMTD_BAD_Q || !bits_decoded())
        return 18;
    if (qmtd_bits_open(2, K, 1, table, sizeof table, bits_received, sizeof bits_received, result, K, syndrome, K,
                       difference, K) != QMTD_OK ||
        !same(result, bits_received, K) || !same(difference, zeros, K))
        return 19;
    if (bits_explain(0) != QMTD_OK || !same(answer, bit_answer, sizeof answer) ||
        bits_explain(K) != QMTD_BAD_SYMBOL_NUMBER || !same(answer, bit_answer, sizeof answer))
        return 20;
    if (bits_pass(33) != QMTD_BAD_THRESHOLD || !same(result, bits_received, K) || bits_pass(0) != QMTD_OK ||
        !same(result, zeros, K) || !same(syndrome, zeros, K) || !same(difference, bit_difference, K) ||
        !same(changes, expected_changes, sizeof changes))
        return 21;
    return 0;
}

/* Symbols of two bytes and of four: case 9 with values that wrap. Symbols 0 and 1 are received as q - 7 and 3, so that S
 * is q - 7 at checks 0, 4 and 6, q - 4 at check 1, and 3 at checks 2, 5 and 7. */
static uint8_t wide_data[4 * K], wide_page[8 * K], wide_result[4 * K], wide_syndrome[4 * K], wide_difference[4 * K];
static const uint8_t wide_zeros[4 * K];

/* Makes the calls of one width; each step that goes wrong has a number from `first` on. */
#define RUN_WIDE(width, w, type, first)                                                                                \
    static int run_##width(void)                                                                                       \
    {                                                                                                                  \
        const type less_7 = (type)-7, less_4 = (type)-4, less_3 = (type)-3;                                            \
        if (qmtd_##width##_check_table(K, 1, table, sizeof table) != QMTD_OK ||                                        \
            qmtd_##width##_check_table(12, 1, table, sizeof table) != QMTD_NOT_SELF_ORTHOGONAL)                        \
            return first;                                                                                              \
        qmtd_##width##_put_symbol(wide_data, 0, less_7);                                                               \
        qmtd_##width##_put_symbol(wide_data, 1, 3);                                                                    \
        if (qmtd_##width##_encode(K, 1, table, sizeof table, wide_data, w * K, wide_page, w * 2 * K) != QMTD_OK ||     \
            !same(wide_page, wide_data, w * K) || qmtd_##width##_symbol(wide_page, K) != less_7 ||                     \
            qmtd_##width##_symbol(wide_page, K + 1) != less_4 || qmtd_##width##_symbol(wide_page, K + 7) != 3 ||       \
            qmtd_##width##_encode(K, 1, table, sizeof table, wide_data, w * K - 1, wide_page, w * 2 * K) !=            \
                QMTD_BAD_LENGTH)                                                                                       \
            return first + 1;                                                                                          \
        if (qmtd_##width##_syndrome(K, 1, table, sizeof table, wide_page, w * 2 * K, wide_syndrome, w * K) !=          \
                QMTD_OK ||                                                                                             \
            !same(wide_syndrome, wide_zeros, w * K))                                                                   \
            return first + 2;                                                                                          \
        for (size_t i = w * K; i < w * 2 * K; i++)                                                                     \
            wide_page[i] = 0;                                                                                          \
        if (qmtd_##width##_decode(K, 1, table, sizeof table, wide_page, w * 2 * K, thresholds, sizeof thresholds,      \
                                  wide_result, w * K, wide_syndrome, w * K, wide_difference, w * K,                    \
                                  margins, sizeof margins, counts, sizeof counts) != QMTD_OK ||                        \
            !same(wide_result, wide_zeros, w * K) || !same(wide_syndrome, wide_zeros, w * K) ||                        \
            qmtd_##width##_symbol(wide_difference, 0) != 7 || qmtd_##width##_symbol(wide_difference, 1) != less_3 ||   \
            !same(counts, expected_counts, sizeof counts) || qmtd_margin(margins, 1) != 3 ||                           \
            qmtd_margin(margins, 2) != 5)                                                                              \
            return first + 3;                                                                                          \
        if (qmtd_##width##_open(K, 1, table, sizeof table, wide_page, w * 2 * K, wide_result, w * K,                   \
                                wide_syndrome, w * K, wide_difference, w * K) != QMTD_OK ||                            \
            !same(wide_result, wide_data, w * K) || qmtd_##width##_symbol(wide_syndrome, 1) != less_4 ||               \
            !same(wide_difference, wide_zeros, w * K))                                                                 \
            return first + 4;                                                                                          \
        if (qmtd_##width##_explain(K, 1, table, sizeof table, 0, 0, wide_result, w * K, wide_syndrome, w * K,          \
                                   wide_difference, w * K, answer, sizeof answer) != QMTD_OK ||                        \
            qmtd_number(answer) != QMTD_GROUND_CHANGE || qmtd_number(answer + 4) != less_7 ||                          \
            qmtd_number(answer + 8) != 3 || qmtd_number(answer + 12) != 1 || answer[16] != 26)                         \
            return first + 5;                                                                                          \
        if (qmtd_##width##_pass(K, 1, table, sizeof table, 0, wide_result, w * K, wide_syndrome, w * K,                \
                                wide_difference, w * K, changes, sizeof changes) != QMTD_OK ||                         \
            !same(wide_result, wide_zeros, w * K) || !same(wide_syndrome, wide_zeros, w * K) ||                        \
            !same(changes, expected_changes, sizeof changes))                                                          \
            return first + 6;                                                                                          \
        return 0;                                                                                                      \
    }

RUN_WIDE(u16, QMTD_U16_WIDTH, uint16_t, 22)
RUN_WIDE(u32, QMTD_U32_WIDTH, uint32_t, 29)

/* Page 3 at q = 3 with the symbols 0, 2, and page 300 at q = 256 with 7, 255, 9. */
static const uint8_t two_pages[] = {2, 0, 3, 0, 2, 24, 0, 0, 0, 2, 0, 0, 0, 44, 1, 255, 26, 0, 0, 0, 3, 0, 0, 0,
                                    0, 2, 7, 255, 9};
static const uint8_t numbers[] = {QMTD_FILE_NUMBER(3), QMTD_FILE_NUMBER(300)}, tops[] = {2, 255};
static const uint8_t lengths[] = {QMTD_FILE_LENGTH(2), QMTD_FILE_LENGTH(3)}, bodies[] = {0, 2, 7, 255, 9};
static const uint8_t second_page[QMTD_FILE_ENTRY_LEN] = {44, 1, 0, 0, 255, 0, 0, 0, 26, 0, 0, 0, 3, 0, 0, 0};
static uint8_t file[sizeof two_pages + 1], length[QMTD_FILE_LENGTH_LEN], entry[QMTD_FILE_ENTRY_LEN];

/* The calls on files. */
static int run_files(void)
{
    file[sizeof two_pages] = 99;
    if (qmtd_file_write(numbers, sizeof numbers, tops, sizeof tops, lengths, sizeof lengths, bodies, sizeof bodies, file,
                        sizeof file, length, sizeof length) != QMTD_OK ||
        !same(file, two_pages, sizeof two_pages) || file[sizeof two_pages] != 99 ||
        qmtd_number(length) != sizeof two_pages)
        return 40;
    if (qmtd_file_read(file, sizeof two_pages, 1, entry, sizeof entry) != QMTD_OK ||
        !same(entry, second_page, sizeof entry) ||
        qmtd_file_read(file, sizeof file, 1, entry, sizeof entry) != QMTD_BAD_BODY ||
        qmtd_file_read(file, sizeof two_pages, 2, entry, sizeof entry) != QMTD_BAD_ENTRY ||
        !same(entry, second_page, sizeof entry))
        return 41;
    return 0;
}

int run(void);

int run(void)
{
    if (qmtd_version() != QMTD_VERSION_NUMBER)
        return 1;
    if (qmtd_check_table(256, K, 1, table, sizeof table) != QMTD_OK ||
        qmtd_check_table(256, 12, 1, table, sizeof table) != QMTD_NOT_SELF_ORTHOGONAL)
        return 2;
    if (qmtd_encode(256, K, 1, table, sizeof table, data, K, page, sizeof page) != QMTD_OK ||
        !same(page, code_word, sizeof page))
        return 3;
    if (qmtd_syndrome(256, K, 1, table, sizeof table, page, sizeof page, syndrome, K) != QMTD_OK ||
        !same(syndrome, zeros, K))
        return 4;
    if (decode(256) != QMTD_OK || !decoded())
        return 5;
    if (decode(257) != QMTD_BAD_Q || !decoded())
        return 6;
    margins[0] = counts[0] = 0xEE;
    if (decode_counters() != QMTD_OK || !decoded() || !same(counters, zeros, sizeof counters))
        return 7;
    if (qmtd_open(256, K, 1, table, sizeof table, received, sizeof received, result, K, syndrome, K, difference, K) !=
            QMTD_OK ||
        !same(result, received, K) || !same(difference, zeros, K))
        return 8;
    if (explain(0) != QMTD_OK || !same(answer, expected_answer, sizeof answer) ||
        explain(K) != QMTD_BAD_SYMBOL_NUMBER || !same(answer, expected_answer, sizeof answer))
        return 9;
    if (pass(0) != QMTD_OK || !same(result, zeros, K) || !same(syndrome, zeros, K) ||
        !same(difference, expected_difference, K) || !same(changes, expected_changes, sizeof changes))
        return 10;
    if (pass(33) != QMTD_BAD_THRESHOLD || !same(difference, expected_difference, K) ||
        !same(changes, expected_changes, sizeof changes))
        return 11;
    counters[255] = 1;
    if (decode_counters() != QMTD_BAD_LENGTH || !decoded() || counters[255] != 1)
        return 12;
    if (qmtd_encode_outer(256, K, 1, table, sizeof table, K, data, K, page, sizeof page) != QMTD_OK ||
        !same(page, outer_word, sizeof page) ||
        qmtd_encode_outer(256, K, 1, table, sizeof table, 2, data, K, page, sizeof page) != QMTD_BAD_BLOCK ||
        !same(page, outer_word, sizeof page))
        return 13;
    if (decode_outer(K) != QMTD_OK || !decoded_outer() || decode_outer(1) != QMTD_BAD_BLOCK || !decoded_outer())
        return 14;
    const int bits = run_bits(), u16 = bits != 0 ? bits : run_u16(), u32 = u16 != 0 ? u16 : run_u32();
    return u32 != 0 ? u32 : run_files();
}
