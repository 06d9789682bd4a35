/* codes.h - the codes that are measured, and tables for them, for the programs that measure. */
#ifndef CODES_H
#define CODES_H

#include "qmtd.h"

#include <stdio.h>
#include <stdlib.h>
#include <string.h>

struct code {
    uint32_t k, b, positions, spread; /* positions of each branch */
};

/* Takes the next position of a run: the first above the last one that gives no difference twice; taken has a flag for
 * each difference of all runs. Was there one? */
static int take_position(uint32_t k, uint32_t *run, uint32_t n, uint8_t *taken)
{
    for (uint32_t p = n == 0 ? 0 : run[n - 1] + 1; p < k; p++) {
        uint8_t trial[QMTD_MAX_K];
        memcpy(trial, taken, k);
        uint32_t a = 0;
        for (; a < n; a++) {
            uint32_t d = p - run[a];
            if (trial[d]++ || trial[k - d]++)
                break;
        }
        if (a < n)
            continue;
        memcpy(taken, trial, k);
        run[n] = p;
        return 1;
    }
    return 0;
}

/* Makes a table greedily, the runs in turn. All positions are then multiplied by the spread, which keeps the
 * differences apart, so that they lie all over the ring. */
static void make_table(const struct code *code, uint8_t *table)
{
    uint32_t k = code->k, runs[QMTD_MAX_B][QMTD_MAX_J];
    uint8_t taken[QMTD_MAX_K] = {0};
    for (uint32_t n = 0; n < code->positions; n++)
        for (uint32_t r = 0; r < code->b; r++)
            if (!take_position(k, runs[r], n, taken)) {
                fprintf(stderr, "no table with k = %u, b = %u and %u positions a branch\n", (unsigned)k,
                        (unsigned)code->b, (unsigned)code->positions);
                exit(1);
            }
    for (uint32_t r = 0; r < code->b; r++) {
        uint8_t used[QMTD_MAX_K] = {0};
        for (uint32_t a = 0; a < code->positions; a++)
            used[runs[r][a] * code->spread % k] = 1;
        for (uint32_t p = 0; p < k; p++)
            if (used[p]) {
                *table++ = (uint8_t)p;
                *table++ = (uint8_t)(p >> 8);
            }
    }
}

#endif
