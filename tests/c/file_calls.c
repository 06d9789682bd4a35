/* file_calls.c - what reference pages cannot hold of the calls on files of pages: null pointers, every alignment, files and
 * listings at random that must read back, and altered files, of which those that are accepted must be what the writer
 * writes from what was read. */
#include "qmtd_file.h"

#include <stdio.h>
#include <stdlib.h>
#include <string.h>

enum { MAX_PAGES = QMTD_FILE_MAX_PAGES, MAX_LEN = QMTD_FILE_MAX_LEN, TRIES = 4000, ALTERED = 60000 };

static int failures;

static void expect(int right, const char *what)
{
    if (right)
        return;
    if (failures++ < 20)
        printf("FAILED  %s\n", what);
}

/* xorshift64* */
static uint64_t state = 88172645463325252u;

static uint32_t below(uint32_t n)
{
    state ^= state >> 12;
    state ^= state << 25;
    state ^= state >> 27;
    return (uint32_t)((state * 2685821657736338717u) >> 32) % n;
}

/* Lists as the writer takes them. */
struct listing {
    uint32_t count;
    uint8_t numbers[2 * MAX_PAGES], tops[MAX_PAGES], lengths[4 * MAX_PAGES], bodies[MAX_LEN];
    size_t bodies_len;
};

static void put(uint8_t *at, int bytes, uint32_t number)
{
    for (int i = 0; i < bytes; i++)
        at[i] = (uint8_t)(number >> 8 * i);
}

static void add(struct listing *list, uint32_t number, uint32_t top, const uint8_t *body, uint32_t length)
{
    put(list->numbers + 2 * list->count, 2, number);
    list->tops[list->count] = (uint8_t)top;
    put(list->lengths + 4 * list->count, 4, length);
    memcpy(list->bodies + list->bodies_len, body, length);
    list->bodies_len += length;
    list->count++;
}

static uint32_t write_list(const struct listing *list, uint8_t *output, size_t output_len, uint8_t *length)
{
    return qmtd_file_write(list->numbers, 2 * list->count, list->tops, list->count, list->lengths, 4 * list->count,
                           list->bodies, list->bodies_len, output, output_len, length, QMTD_FILE_LENGTH_LEN);
}

static void draw(struct listing *list, uint32_t most_pages, uint32_t most_symbols)
{
    static uint8_t body[QMTD_FILE_MAX_PAGE];
    uint32_t count = 1 + below(most_pages), number = below(65536 - count * 700);
    *list = (struct listing){.count = 0};
    for (uint32_t i = 0; i < count; i++) {
        uint32_t top = 2 + below(254), length = 2 + below(most_symbols - 1);
        for (uint32_t j = 0; j < length; j++)
            body[j] = (uint8_t)below(top + 1);
        add(list, number, top, body, length);
        number += 1 + below(700);
    }
}

/* The pages of an accepted file as lists. */
static int read_list(const uint8_t *file, size_t file_len, struct listing *list)
{
    uint8_t entry[QMTD_FILE_ENTRY_LEN];
    *list = (struct listing){.count = 0};
    uint32_t place = 0, number;
    while ((number = qmtd_file_read(file, file_len, place, entry, sizeof entry)) == QMTD_OK) {
        uint32_t offset = qmtd_number(entry + 8), length = qmtd_number(entry + 12);
        if (offset > file_len || length > file_len - offset || list->count == MAX_PAGES)
            return 0;
        add(list, qmtd_number(entry), qmtd_number(entry + 4), file + offset, length);
        place++;
    }
    return place > 0 && number == QMTD_BAD_ENTRY;
}

static int same_list(const struct listing *a, const struct listing *b)
{
    return a->count == b->count && a->bodies_len == b->bodies_len &&
           memcmp(a->numbers, b->numbers, 2 * a->count) == 0 && memcmp(a->tops, b->tops, a->count) == 0 &&
           memcmp(a->lengths, b->lengths, 4 * a->count) == 0 && memcmp(a->bodies, b->bodies, a->bodies_len) == 0;
}

static struct listing list, again;
static uint8_t file[MAX_LEN + 64], other[MAX_LEN + 64];

/* Written and read back, with an output that is longer; then altered in one place or two. */
static void there_and_back(void)
{
    uint8_t length[QMTD_FILE_LENGTH_LEN];
    for (int i = 0; i < TRIES; i++) {
        draw(&list, i % 40 == 0 ? MAX_PAGES : 6, i % 50 == 0 ? 900 : 12);
        size_t len = QMTD_FILE_LEN(list.count, list.bodies_len), more = below(64);
        memset(file, 0x5A, sizeof file);
        expect(write_list(&list, file, len + more, length) == QMTD_OK && qmtd_number(length) == len, "written");
        for (size_t j = len; j < len + more; j++)
            expect(file[j] == 0x5A, "the rest of the output is kept");
        expect(memcmp(file + len - list.bodies_len, list.bodies, list.bodies_len) == 0, "the bodies end the file");
        expect(read_list(file, len, &again) && same_list(&list, &again), "read back");
        memcpy(other, file, len);
        put(length, 4, 99);
        expect(write_list(&list, other, len - 1, length) == QMTD_BAD_LENGTH && memcmp(other, file, len) == 0 &&
                   qmtd_number(length) == 99,
               "one byte short: refused, and all is as it was");
    }
}

static void altered(void)
{
    static const struct { uint32_t most_pages, most_symbols; } sizes[] = {{3, 4}, {2, 30}, {6, 8}};
    unsigned long accepted = 0;
    for (int i = 0; i < ALTERED; i++) {
        uint8_t length[QMTD_FILE_LENGTH_LEN];
        draw(&list, sizes[i % 3].most_pages, sizes[i % 3].most_symbols);
        size_t len = QMTD_FILE_LEN(list.count, list.bodies_len);
        expect(write_list(&list, file, len, length) == QMTD_OK, "written");
        for (uint32_t j = 0; j <= below(2); j++)
            file[below((uint32_t)len)] = (uint8_t)(below(2) ? below(256) : below(4));
        len -= below(8) == 0 ? below(3) : 0;
        uint8_t entry[QMTD_FILE_ENTRY_LEN];
        if (qmtd_file_read(file, len, 0, entry, sizeof entry) != QMTD_OK)
            continue;
        accepted++;
        expect(read_list(file, len, &again), "every place of an accepted file is read");
        expect(write_list(&again, other, len, length) == QMTD_OK && qmtd_number(length) == len &&
                   memcmp(file, other, len) == 0,
               "an accepted file is what the writer writes");
    }
    expect(accepted > ALTERED / 10 && accepted < ALTERED, "some altered files are accepted");
}

/* Every piece in turn at every distance from an aligned address. */
static void alignments(void)
{
    static uint8_t memory[6][1024];
    uint8_t length[QMTD_FILE_LENGTH_LEN];
    draw(&list, 5, 40);
    size_t len = QMTD_FILE_LEN(list.count, list.bodies_len);
    expect(write_list(&list, file, len, length) == QMTD_OK, "written");
    for (int piece = 0; piece < 6; piece++)
        for (size_t by = 0; by < 32; by++) {
            uint8_t *at[6];
            for (int i = 0; i < 6; i++)
                at[i] = memory[i] + (i == piece ? by : 0);
            memcpy(at[0], list.numbers, 2 * list.count);
            memcpy(at[1], list.tops, list.count);
            memcpy(at[2], list.lengths, 4 * list.count);
            memcpy(at[3], list.bodies, list.bodies_len);
            memset(at[4], 0x77, len + 1);
            expect(qmtd_file_write(at[0], 2 * list.count, at[1], list.count, at[2], 4 * list.count, at[3], list.bodies_len,
                                   at[4], len + 1, at[5], 4) == QMTD_OK &&
                       memcmp(at[4], file, len) == 0 && at[4][len] == 0x77 && qmtd_number(at[5]) == len,
                   "written at any alignment");
            expect(qmtd_file_read(at[4], len, list.count - 1, at[5], 16) == QMTD_OK &&
                       memcmp(at[5], list.numbers + 2 * (list.count - 1), 2) == 0 &&
                       qmtd_number(at[5] + 8) + qmtd_number(at[5] + 12) == len,
                   "read at any alignment");
        }
}

static void nulls(void)
{
    uint8_t byte[64] = {0}, length[4] = {1, 2, 3, 4}, entry[16] = {9};
    expect(qmtd_file_read(NULL, 0, 0, entry, 16) == QMTD_BAD_CONTENTS && entry[0] == 9, "no file");
    expect(qmtd_file_read(NULL, 0, 0, NULL, 0) == QMTD_BAD_LENGTH, "no file and no entry");
    expect(qmtd_file_read(byte, 64, 0, NULL, 0) == QMTD_BAD_LENGTH, "no entry");
    expect(qmtd_file_write(NULL, 0, NULL, 0, NULL, 0, NULL, 0, NULL, 0, NULL, 0) == QMTD_BAD_LENGTH, "nothing at all");
    expect(qmtd_file_write(NULL, 0, NULL, 0, NULL, 0, NULL, 0, byte, 64, length, 4) == QMTD_BAD_CONTENTS, "no page");
    expect(qmtd_file_write(NULL, 0, NULL, 0, NULL, 0, NULL, 0, NULL, 0, length, 4) == QMTD_BAD_LENGTH, "no output");
    expect(qmtd_file_write(NULL, 0, byte, 1, byte, 4, NULL, 0, byte + 8, 13, length, 4) == QMTD_BAD_LENGTH, "no numbers");
    expect(qmtd_file_write(byte, 2, NULL, 0, byte + 2, 4, NULL, 0, byte + 8, 13, length, 4) == QMTD_BAD_LENGTH, "no tops");
    expect(qmtd_file_write(byte, 2, byte + 2, 1, NULL, 0, NULL, 0, byte + 8, 13, length, 4) == QMTD_BAD_LENGTH, "no lengths");
    expect(qmtd_file_write(byte, 2, byte + 2, 1, byte + 4, 4, NULL, 0, byte + 8, 13, length, 4) == QMTD_BAD_ENTRY, "no body");
    expect(length[0] == 1 && length[3] == 4, "the length is left");
}

int main(void)
{
    nulls();
    alignments();
    there_and_back();
    altered();
    if (failures > 0)
        printf("%d failures\n", failures);
    return failures > 0;
}
