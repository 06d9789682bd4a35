/* stack.c - the stack that the calls use, against what the headers tell a caller to allow: 9 KiB, QMTD_WIDE_STACK for
 * symbols of two bytes and of four, and 1 KiB for the calls on files. Each call runs on a stack of its own, filled with a
 * pattern before; what no longer holds the pattern was used. */
#define _DEFAULT_SOURCE
#include "qmtd.h"
#include "qmtd_bits.h"
#include "qmtd_wide.h"
#include "qmtd_file.h"

#include <stdio.h>
#include <string.h>

enum { K = QMTD_MAX_K, N = QMTD_MAX_DATA, PAIRS_K = N / QMTD_MAX_B, BLOCK = 16 };
enum { STACK = 131072, FILL = 0xA7, ALLOWED = 9216, ALLOWED_FILE = 1024 };

/* One branch: a Golomb ruler of 10 marks. Eight branches: two positions each. */
static const uint8_t ruler[] = {0, 0, 1, 0, 6, 0, 10, 0, 23, 0, 26, 0, 34, 0, 41, 0, 53, 0, 55, 0};
static const uint8_t pairs[] = {0, 0, 1, 0, 0, 0, 2, 0, 0, 0, 3, 0, 0, 0, 4, 0,
                                0, 0, 5, 0, 0, 0, 6, 0, 0, 0, 7, 0, 0, 0, 8, 0};
static const uint8_t thresholds[] = {2, 1, 0, 0};

/* The code of the calls below; those on wide symbols have one for each number of data symbols that their arrays have. */
static const struct code {
    const char *name;
    uint32_t k, b;
    const uint8_t *table;
    size_t table_len;
} codes[] = {{"b = 1", K, 1, ruler, sizeof ruler}, {"b = 8", PAIRS_K, QMTD_MAX_B, pairs, sizeof pairs}},
  wide_codes[] = {{"k = 128", 128, 1, ruler, sizeof ruler},
                  {"k = 128, b = 8", 128, QMTD_MAX_B, pairs, sizeof pairs},
                  {"k = 4096", K, 1, ruler, sizeof ruler}}, *code;

/* Long enough for symbols of four bytes. */
enum { W = QMTD_U32_WIDTH };
static uint8_t data[W * N], bits[N], page[W * QMTD_MAX_PAGE_LEN], result[W * N], syndrome[W * K], difference[W * N];
static uint8_t margins[QMTD_MARGINS_LEN(N, 1)], counts[QMTD_COUNTS_LEN], changes[QMTD_CHANGES_LEN];
static uint8_t answer[QMTD_ANSWER_LEN], counters[QMTD_COUNTERS_LEN];
static uint8_t stack[STACK] __attribute__((aligned(16)));
static uint32_t number;

#define CODE 251, code->k, code->b, code->table, code->table_len
#define BIT_CODE 2, code->k, code->b, code->table, code->table_len

static void check_table(void)
{
    number = qmtd_check_table(CODE);
}

/* Before encode, which writes the page anew. */
static void encode_outer(void)
{
    number = qmtd_encode_outer(CODE, BLOCK, data, N, page, N + code->k);
}

static void encode(void)
{
    number = qmtd_encode(CODE, data, N, page, N + code->k);
}

static void work_out_syndrome(void)
{
    number = qmtd_syndrome(CODE, page, N + code->k, syndrome, code->k);
}

static void decode(void)
{
    number = qmtd_decode(CODE, page, N + code->k, thresholds, sizeof thresholds, result, N, syndrome, code->k,
                         difference, N, margins, sizeof margins, counts, sizeof counts);
}

static void decode_counters(void)
{
    number = qmtd_decode_counters(CODE, page, N + code->k, thresholds, sizeof thresholds, result, N, syndrome, code->k,
                                  difference, N, margins, sizeof margins, counters, sizeof counters,
                                  counts, sizeof counts);
}

/* The data did not keep the outer rule, so that there are steps in many blocks. */
static void decode_outer(void)
{
    number = qmtd_decode_outer(CODE, BLOCK, page, N + code->k, thresholds, sizeof thresholds, result, N,
                               syndrome, code->k, difference, N, margins, sizeof margins, counts, sizeof counts);
}

static void open_page(void)
{
    number = qmtd_open(CODE, page, N + code->k, result, N, syndrome, code->k, difference, N);
}

/* On what was opened. */
static void pass(void)
{
    number = qmtd_pass(CODE, 0, result, N, syndrome, code->k, difference, N, changes, sizeof changes);
}

/* The last symbol, on what the pass left. */
static void explain(void)
{
    number = qmtd_explain(CODE, 0, N - 1, result, N, syndrome, code->k, difference, N, answer, sizeof answer);
}

/* The same seven on bit pages. */
static void bits_check_table(void)
{
    number = qmtd_bits_check_table(BIT_CODE);
}

static void bits_encode(void)
{
    number = qmtd_bits_encode(BIT_CODE, bits, N, page, N + code->k);
}

static void bits_syndrome(void)
{
    number = qmtd_bits_syndrome(BIT_CODE, page, N + code->k, syndrome, code->k);
}

static void bits_decode(void)
{
    number = qmtd_bits_decode(BIT_CODE, page, N + code->k, thresholds, sizeof thresholds, result, N, syndrome, code->k,
                              difference, N, margins, sizeof margins, counts, sizeof counts);
}

static void bits_open(void)
{
    number = qmtd_bits_open(BIT_CODE, page, N + code->k, result, N, syndrome, code->k, difference, N);
}

static void bits_pass(void)
{
    number = qmtd_bits_pass(BIT_CODE, 0, result, N, syndrome, code->k, difference, N, changes, sizeof changes);
}

static void bits_explain(void)
{
    number = qmtd_bits_explain(BIT_CODE, 0, N - 1, result, N, syndrome, code->k, difference, N, answer, sizeof answer);
}

/* The seven on symbols of w bytes. */
#define WIDE_CALLS(width, w)                                                                                           \
    static void width##_check_table(void)                                                                              \
    {                                                                                                                  \
        number = qmtd_##width##_check_table(WIDE_CODE);                                                                \
    }                                                                                                                  \
    static void width##_encode(void)                                                                                   \
    {                                                                                                                  \
        number = qmtd_##width##_encode(WIDE_CODE, data, w * DATA, page, w * (DATA + code->k));                         \
    }                                                                                                                  \
    static void width##_syndrome(void)                                                                                 \
    {                                                                                                                  \
        number = qmtd_##width##_syndrome(WIDE_CODE, page, w * (DATA + code->k), syndrome, w * code->k);                \
    }                                                                                                                  \
    static void width##_decode(void)                                                                                   \
    {                                                                                                                  \
        number = qmtd_##width##_decode(WIDE_CODE, page, w * (DATA + code->k), thresholds, sizeof thresholds,           \
                                       result, w * DATA, syndrome, w * code->k, difference, w * DATA,                  \
                                       margins, QMTD_MARGINS_LEN(DATA, 1), counts, sizeof counts);                     \
    }                                                                                                                  \
    static void width##_open(void)                                                                                     \
    {                                                                                                                  \
        number = qmtd_##width##_open(WIDE_CODE, page, w * (DATA + code->k), result, w * DATA, syndrome, w * code->k,   \
                                     difference, w * DATA);                                                            \
    }                                                                                                                  \
    static void width##_pass(void)                                                                                     \
    {                                                                                                                  \
        number = qmtd_##width##_pass(WIDE_CODE, 0, result, w * DATA, syndrome, w * code->k, difference, w * DATA,      \
                                     changes, sizeof changes);                                                         \
    }                                                                                                                  \
    static void width##_explain(void)                                                                                  \
    {                                                                                                                  \
        number = qmtd_##width##_explain(WIDE_CODE, 0, DATA - 1, result, w * DATA, syndrome, w * code->k,               \
                                        difference, w * DATA, answer, sizeof answer);                                  \
    }

#define DATA QMTD_DATA_LEN(code->k, code->b)
#define WIDE_CODE code->k, code->b, code->table, code->table_len

WIDE_CALLS(u16, QMTD_U16_WIDTH)
WIDE_CALLS(u32, QMTD_U32_WIDTH)

/* A file of 64 pages of 1,000 symbols, all 0, written and then read. */
enum { FILE_PAGES = QMTD_FILE_MAX_PAGES, FILE_BODIES = FILE_PAGES * 1000 };
static uint8_t numbers[2 * FILE_PAGES], tops[FILE_PAGES], lengths[4 * FILE_PAGES], bodies[FILE_BODIES];
static uint8_t file[QMTD_FILE_LEN(FILE_PAGES, FILE_BODIES)], length[QMTD_FILE_LENGTH_LEN], entry[QMTD_FILE_ENTRY_LEN];

static void file_write(void)
{
    number = qmtd_file_write(numbers, sizeof numbers, tops, sizeof tops, lengths, sizeof lengths, bodies, sizeof bodies,
                             file, sizeof file, length, sizeof length);
}

static void file_read(void)
{
    number = qmtd_file_read(file, sizeof file, FILE_PAGES - 1, entry, sizeof entry);
}

static void idle(void)
{
    number = QMTD_OK;
}

/* Makes a call on the stack above. */
static void on_stack(void (*call)(void));

#if defined(__ARM_ARCH_PROFILE) && __ARM_ARCH_PROFILE == 'M'

static void on_stack(void (*call)(void))
{
    /* r4 keeps the caller's stack; every function leaves it as it was. */
    __asm__ volatile("mov r4, sp\n\tmov sp, %0\n\tblx %1\n\tmov sp, r4"
                     :
                     : "r"(stack + sizeof stack), "r"(call)
                     : "r0", "r1", "r2", "r3", "r4", "r12", "lr", "cc", "memory");
}

#else

#include <ucontext.h>

static void on_stack(void (*call)(void))
{
    static ucontext_t caller, callee;
    getcontext(&callee);
    callee.uc_stack.ss_sp = stack;
    callee.uc_stack.ss_size = sizeof stack;
    callee.uc_link = &caller;
    makecontext(&callee, call, 0);
    swapcontext(&caller, &callee);
}

#endif

static size_t used_by(void (*call)(void))
{
    memset(stack, FILL, sizeof stack);
    on_stack(call);
    size_t free_bytes = 0;
    while (free_bytes < sizeof stack && stack[free_bytes] == FILL)
        free_bytes++;
    return sizeof stack - free_bytes;
}

/* Makes a call on the code at hand and prints what it used. Was it done, within what is allowed? */
static int fits(const char *name, void (*call)(void), size_t around, size_t allowed)
{
    size_t used = used_by(call) - around;
    printf("%s, %-16s %lu bytes of stack\n", code->name, name, (unsigned long)used);
    return number == QMTD_OK && used <= allowed;
}

/* The calls on wide symbols; the page is damaged between those before decode and it. Are all within the macro? */
static int wide_fits(size_t around)
{
    static const struct {
        const char *name;
        void (*call)(void);
        uint32_t w;
    } calls[] = {{"u16_check_table", u16_check_table, 2}, {"u16_encode", u16_encode, 2},
                 {"u16_syndrome", u16_syndrome, 2}, {"u16_decode", u16_decode, 2}, {"u16_open", u16_open, 2},
                 {"u16_pass", u16_pass, 2}, {"u16_explain", u16_explain, 2},
                 {"u32_check_table", u32_check_table, 4}, {"u32_encode", u32_encode, 4},
                 {"u32_syndrome", u32_syndrome, 4}, {"u32_decode", u32_decode, 4}, {"u32_open", u32_open, 4},
                 {"u32_pass", u32_pass, 4}, {"u32_explain", u32_explain, 4}};
    int right = 1;
    for (size_t i = 0; i < sizeof data; i++)
        data[i] = (uint8_t)(i * 7 + i / 256);
    for (size_t c = 0; c < sizeof wide_codes / sizeof wide_codes[0]; c++)
        for (size_t i = 0; i < sizeof calls / sizeof calls[0]; i++) {
            code = &wide_codes[c];
            right &= fits(calls[i].name, calls[i].call, around, QMTD_WIDE_STACK(calls[i].w, code->k, code->b));
            for (size_t at = 0; (calls[i].call == u16_encode || calls[i].call == u32_encode) &&
                                at < calls[i].w * (DATA + code->k); at += 200)
                page[at] ^= 1;
        }
    return right;
}

int main(void)
{
    static const struct {
        const char *name;
        void (*call)(void);
    } calls[] = {{"check_table", check_table}, {"encode_outer", encode_outer}, {"encode", encode},
                 {"syndrome", work_out_syndrome}, {"decode", decode}, {"decode_counters", decode_counters},
                 {"decode_outer", decode_outer}, {"open", open_page}, {"pass", pass}, {"explain", explain},
                 {"bits_check_table", bits_check_table}, {"bits_encode", bits_encode},
                 {"bits_syndrome", bits_syndrome}, {"bits_decode", bits_decode}, {"bits_open", bits_open},
                 {"bits_pass", bits_pass}, {"bits_explain", bits_explain}};
    int wrong = 0;
    size_t around = used_by(idle);
    for (size_t i = 0; i < N; i++) {
        data[i] = (uint8_t)(i % 251);
        bits[i] = data[i] % 2;
    }
    for (size_t c = 0; c < sizeof codes / sizeof codes[0]; c++)
        for (size_t i = 0; i < sizeof calls / sizeof calls[0]; i++) {
            code = &codes[c];
            wrong |= !fits(calls[i].name, calls[i].call, around, ALLOWED);
            /* The page is damaged before it is decoded. */
            uint8_t q = calls[i].call == encode ? 251 : calls[i].call == bits_encode ? 2 : 0;
            for (size_t at = 0; q != 0 && at < N + code->k; at += 100)
                page[at] = (uint8_t)((page[at] + 1) % q);
        }
    wrong |= !wide_fits(around);
    for (size_t i = 0; i < FILE_PAGES; i++) {
        numbers[2 * i] = (uint8_t)i;
        tops[i] = 2;
        lengths[4 * i] = 1000 % 256;
        lengths[4 * i + 1] = 1000 / 256;
    }
    for (int i = 0; i < 2; i++) {
        size_t used = used_by(i == 0 ? file_write : file_read) - around;
        printf("%-23s %lu bytes of stack\n", i == 0 ? "file_write" : "file_read", (unsigned long)used);
        wrong |= number != QMTD_OK || used > ALLOWED_FILE;
    }
    return wrong;
}
