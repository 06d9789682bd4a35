// header.cpp - the headers compile without warnings as C++11, their names are C names to the linker, and their macros and
// inline functions give in C++ what they give in C.
#include "qmtd.h"
#include "qmtd.h"
#include "qmtd_bits.h"
#include "qmtd_bits.h"
#include "qmtd_wide.h"
#include "qmtd_wide.h"
#include "qmtd_file.h"
#include "qmtd_file.h"

int main()
{
    static const uint8_t table[] = {QMTD_POSITION(0), QMTD_POSITION(1), QMTD_POSITION(4), QMTD_POSITION(6)};
    static const uint8_t positions[] = {QMTD_POSITION(255), QMTD_POSITION(256),
                                        QMTD_POSITION(260), QMTD_POSITION(4095)};
    static const uint8_t numbers[] = {255, 255, 255, 255, 1, 2, 3, 4};
    static const uint8_t margins[] = {33, 0, 0, 0, 223, 255, 255, 255, 255, 255, 255, 255, 0, 0, 0, 0};
    uint8_t symbols[QMTD_WIDE_DATA_LEN(QMTD_U32_WIDTH, 2, 1)] = {0};
    static const uint8_t lists[] = {QMTD_FILE_NUMBER(300), QMTD_FILE_LENGTH(8192), QMTD_FILE_LENGTH(0x04030201)};
    uint8_t entry[QMTD_FILE_ENTRY_LEN] = {0};
    qmtd_u32_put_symbol(symbols, 1, 0xFFFEFDFC);
    qmtd_u16_put_symbol(symbols, 1, 0x0201);
    const bool right = qmtd_version() == QMTD_VERSION_NUMBER &&
                       qmtd_check_table(QMTD_MAX_Q, 13, 1, table, sizeof table) == QMTD_OK &&
                       qmtd_bits_check_table(2, 13, 1, table, sizeof table) == QMTD_OK &&
                       qmtd_u16_check_table(13, 1, table, sizeof table) == QMTD_OK &&
                       qmtd_u32_check_table(12, 1, table, sizeof table) == QMTD_NOT_SELF_ORTHOGONAL &&
                       sizeof symbols == 8 && symbols[2] == 1 && symbols[3] == 2 && symbols[4] == 0xFC &&
                       qmtd_u16_symbol(symbols, 3) == 0xFFFE && qmtd_u32_symbol(symbols, 0) == 0x02010000 &&
                       qmtd_u32_symbol(symbols, 1) == 0xFFFEFDFC &&
                       qmtd_file_read(table, sizeof table, 0, entry, sizeof entry) == QMTD_BAD_CONTENTS &&
                       sizeof lists == 10 && lists[0] == 44 && lists[1] == 1 && qmtd_number(lists + 2) == 8192 &&
                       qmtd_number(lists + 6) == 0x04030201 && QMTD_FILE_LEN(2, 5) == 29 &&
                       sizeof positions == 8 && positions[0] == 255 && positions[1] == 0 &&
                       positions[2] == 0 && positions[3] == 1 && positions[4] == 4 && positions[5] == 1 &&
                       positions[6] == 255 && positions[7] == 15 &&
                       qmtd_number(numbers) == 0xFFFFFFFF && qmtd_number(numbers + 4) == 0x04030201 &&
                       qmtd_margin(margins, 0) == 33 && qmtd_margin(margins, 1) == -33 &&
                       qmtd_margin(margins, 2) == -1 && qmtd_margin(margins, 3) == 0;
    return right ? 0 : 1;
}
