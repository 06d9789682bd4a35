/* header.c - the headers alone, each twice, compile without warnings as C99; the names and types of their calls are these,
 * and their macros are constants that initialise a table. */
#include "qmtd_wide.h"
#include "qmtd_wide.h"
#include "qmtd_file.h"
#include "qmtd_file.h"
#include "qmtd_bits.h"
#include "qmtd_bits.h"
#include "qmtd.h"
#include "qmtd.h"

#define READ const uint8_t *, uint64_t
#define LENT uint8_t *, uint64_t

typedef uint32_t version_call(void);
typedef uint32_t check_table_call(uint32_t, uint32_t, uint32_t, READ);
typedef uint32_t encode_call(uint32_t, uint32_t, uint32_t, READ, READ, LENT);
typedef uint32_t syndrome_call(uint32_t, uint32_t, uint32_t, READ, READ, LENT);
typedef uint32_t decode_call(uint32_t, uint32_t, uint32_t, READ, READ, READ, LENT, LENT, LENT, LENT, LENT);
typedef uint32_t decode_counters_call(uint32_t, uint32_t, uint32_t, READ, READ, READ, LENT, LENT, LENT, LENT, LENT,
                                      LENT);
typedef uint32_t encode_outer_call(uint32_t, uint32_t, uint32_t, READ, uint32_t, READ, LENT);
typedef uint32_t decode_outer_call(uint32_t, uint32_t, uint32_t, READ, uint32_t, READ, READ, LENT, LENT, LENT, LENT,
                                   LENT);
typedef uint32_t open_call(uint32_t, uint32_t, uint32_t, READ, READ, LENT, LENT, LENT);
typedef uint32_t pass_call(uint32_t, uint32_t, uint32_t, READ, uint32_t, LENT, LENT, LENT, LENT);
typedef uint32_t explain_call(uint32_t, uint32_t, uint32_t, READ, uint32_t, uint32_t, READ, READ, READ, LENT);
typedef uint32_t file_read_call(READ, uint32_t, LENT);
typedef uint32_t file_write_call(READ, READ, READ, READ, LENT, LENT);
typedef uint32_t number_reader(const uint8_t *);
typedef int32_t margin_reader(const uint8_t *, uint64_t);

/* Without q, for symbols of two bytes and of four. */
typedef uint32_t wide_check_table_call(uint32_t, uint32_t, READ);
typedef uint32_t wide_encode_call(uint32_t, uint32_t, READ, READ, LENT);
typedef uint32_t wide_syndrome_call(uint32_t, uint32_t, READ, READ, LENT);
typedef uint32_t wide_decode_call(uint32_t, uint32_t, READ, READ, READ, LENT, LENT, LENT, LENT, LENT);
typedef uint32_t wide_open_call(uint32_t, uint32_t, READ, READ, LENT, LENT, LENT);
typedef uint32_t wide_pass_call(uint32_t, uint32_t, READ, uint32_t, LENT, LENT, LENT, LENT);
typedef uint32_t wide_explain_call(uint32_t, uint32_t, READ, uint32_t, uint32_t, READ, READ, READ, LENT);
typedef uint16_t u16_reader(const uint8_t *, uint64_t);
typedef uint32_t u32_reader(const uint8_t *, uint64_t);
typedef void u16_writer(uint8_t *, uint64_t, uint16_t);
typedef void u32_writer(uint8_t *, uint64_t, uint32_t);

struct wide_calls {
    wide_check_table_call *check_table;
    wide_encode_call *encode;
    wide_syndrome_call *syndrome;
    wide_decode_call *decode;
    wide_open_call *open;
    wide_pass_call *pass;
    wide_explain_call *explain;
};

extern const struct calls {
    version_call *version;
    check_table_call *check_table;
    encode_call *encode;
    syndrome_call *syndrome;
    decode_call *decode;
    decode_counters_call *decode_counters;
    encode_outer_call *encode_outer;
    decode_outer_call *decode_outer;
    open_call *open;
    pass_call *pass;
    explain_call *explain;
    number_reader *number;
    margin_reader *margin;
    check_table_call *bits_check_table;
    encode_call *bits_encode;
    syndrome_call *bits_syndrome;
    decode_call *bits_decode;
    open_call *bits_open;
    pass_call *bits_pass;
    explain_call *bits_explain;
    struct wide_calls u16, u32;
    u16_reader *u16_symbol;
    u16_writer *put_u16_symbol;
    u32_reader *u32_symbol;
    u32_writer *put_u32_symbol;
    file_read_call *file_read;
    file_write_call *file_write;
} calls;

const struct calls calls = {qmtd_version, qmtd_check_table, qmtd_encode, qmtd_syndrome, qmtd_decode,
                            qmtd_decode_counters, qmtd_encode_outer, qmtd_decode_outer, qmtd_open, qmtd_pass,
                            qmtd_explain, qmtd_number, qmtd_margin,
                            qmtd_bits_check_table, qmtd_bits_encode, qmtd_bits_syndrome, qmtd_bits_decode,
                            qmtd_bits_open, qmtd_bits_pass, qmtd_bits_explain,
                            {qmtd_u16_check_table, qmtd_u16_encode, qmtd_u16_syndrome, qmtd_u16_decode, qmtd_u16_open,
                             qmtd_u16_pass, qmtd_u16_explain},
                            {qmtd_u32_check_table, qmtd_u32_encode, qmtd_u32_syndrome, qmtd_u32_decode, qmtd_u32_open,
                             qmtd_u32_pass, qmtd_u32_explain},
                            qmtd_u16_symbol, qmtd_u16_put_symbol, qmtd_u32_symbol, qmtd_u32_put_symbol,
                            qmtd_file_read, qmtd_file_write};

extern const uint8_t table[QMTD_TABLE_LEN(2, 2)];
const uint8_t table[QMTD_TABLE_LEN(2, 2)] = {QMTD_POSITION(0), QMTD_POSITION(260),
                                             QMTD_POSITION(255 + 1), QMTD_POSITION(QMTD_MAX_K - 1)};

extern uint8_t page[QMTD_WIDE_PAGE_LEN(QMTD_U16_WIDTH, 13, 2)], stack[QMTD_WIDE_STACK(QMTD_U32_WIDTH, 13 + 1, 1 + 1)];
uint8_t page[QMTD_WIDE_PAGE_LEN(QMTD_U16_WIDTH, 13, 2)], stack[QMTD_WIDE_STACK(QMTD_U32_WIDTH, 13 + 1, 1 + 1)];

extern const uint8_t numbers[4], lengths[QMTD_FILE_LENGTH_LEN];
const uint8_t numbers[4] = {QMTD_FILE_NUMBER(300), QMTD_FILE_NUMBER(65535)};
const uint8_t lengths[QMTD_FILE_LENGTH_LEN] = {QMTD_FILE_LENGTH(QMTD_FILE_MAX_PAGE)};
