/* roundtrip.c - the shortest use: encode a page, damage it, decode it. Exit status 0 when the data came back. */
#include "qmtd.h"

#include <string.h>

int main(void)
{
    const uint8_t table[] = {QMTD_POSITION(0), QMTD_POSITION(1), QMTD_POSITION(4), QMTD_POSITION(6)};
    const uint8_t thresholds[] = {0, 0}; /* two passes */
    const uint8_t data[13] = "Hello, pack!";
    uint8_t page[26], result[13], syndrome[13], difference[13], margins[52], counts[QMTD_COUNTS_LEN];

    if (qmtd_encode(256, 13, 1, table, sizeof table, data, 13, page, sizeof page) != QMTD_OK)
        return 1;

    page[4] ^= 0x55; /* the lead replaces a data symbol .. */
    page[20] = 0;    /* .. and a check symbol: 2 * 2 + 0 <= 4, so the data comes back */

    if (qmtd_decode(256, 13, 1, table, sizeof table, page, sizeof page, thresholds, sizeof thresholds,
                    result, 13, syndrome, 13, difference, 13, margins, sizeof margins,
                    counts, sizeof counts) != QMTD_OK)
        return 1;
    return memcmp(result, data, 13) != 0;
}
