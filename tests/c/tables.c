/* tables.c - reads tables, a line each, and tries each with the archive: `k: p p ..` has one branch,
 * `k x b: p p ..; p p ..` a run for each of b branches. All must be accepted, with the smallest and the largest q, and
 * also when only the first positions of each run are used. Prints how many there were. */
#include "qmtd.h"

#include <stdio.h>
#include <stdlib.h>

/* A line's table: its runs one after the other, by position. */
struct table {
    unsigned long k, b;
    unsigned j, positions[QMTD_MAX_B * QMTD_MAX_J];
};

/* Reads a run at a place of a line; returns where it ends, or null where it is none, or of another length than j where j
 * is not 0. */
static char *read_run(char *at, unsigned *run, unsigned *j)
{
    unsigned n = 0;
    for (;; n++) {
        char *end;
        unsigned long p = strtoul(at, &end, 10);
        if (end == at)
            break;
        if (n == QMTD_MAX_J || p >= QMTD_MAX_K)
            return NULL;
        run[n] = (unsigned)p;
        at = end;
    }
    if (n == 0 || (*j != 0 && n != *j))
        return NULL;
    *j = n;
    return at;
}

/* Is the line a table? */
static int read_line(char *at, struct table *table)
{
    table->j = 0;
    table->b = 1;
    table->k = strtoul(at, &at, 10);
    if (at[0] == ' ' && at[1] == 'x')
        table->b = strtoul(at + 2, &at, 10);
    if (*at++ != ':' || table->b < QMTD_MIN_B || table->b > QMTD_MAX_B)
        return 0;
    for (unsigned long r = 0; r < table->b; r++) {
        if (r > 0 && *at++ != ';')
            return 0;
        at = read_run(at, table->positions + r * table->j, &table->j);
        if (at == NULL)
            return 0;
    }
    return *at == '\n' || *at == '\0';
}

/* Is the table with the first j positions of each run accepted? */
static int accepted(const struct table *table, unsigned j)
{
    uint8_t bytes[QMTD_MAX_TABLE_LEN], *to = bytes;
    for (unsigned long r = 0; r < table->b; r++)
        for (unsigned a = 0; a < j; a++) {
            *to++ = (uint8_t)(table->positions[r * table->j + a] & 255);
            *to++ = (uint8_t)(table->positions[r * table->j + a] >> 8);
        }
    uint32_t k = (uint32_t)table->k, b = (uint32_t)table->b;
    return qmtd_check_table(QMTD_MIN_Q, k, b, bytes, QMTD_TABLE_LEN(b, j)) == QMTD_OK &&
           qmtd_check_table(QMTD_MAX_Q, k, b, bytes, QMTD_TABLE_LEN(b, j)) == QMTD_OK;
}

int main(void)
{
    char line[2048];
    unsigned tables = 0, with_branches = 0;

    while (fgets(line, sizeof line, stdin)) {
        struct table table;
        if (!read_line(line, &table))
            return printf("not a table: %s", line), 1;
        for (unsigned j = 1; j <= table.j; j++)
            if (!accepted(&table, j))
                return printf("refused with %u positions a run: %s", j, line), 1;
        tables++;
        with_branches += table.b > 1;
    }
    printf("%u tables accepted, %u of them with branches\n", tables, with_branches);
    return tables == 0;
}
