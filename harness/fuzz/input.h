/* What an input of the fuzz target says: 64 control bytes, and a file part that they may have put right, since hardly
 * any change of a job file is a job file again. */
#ifndef INPUT_H
#define INPUT_H

#include <string.h>

#include "korrigwen.h"

enum { CONTROL = 64 }; /* bytes before the file part */

struct control {
    uint8_t shape;        /* what of the file part is put right: enum shape */
    uint8_t marks_length; /* around the total of rows */
    uint16_t budget;
    uint8_t area; /* numbers of a piece's area */
    uint8_t old;  /* what the lent areas hold before */
    uint8_t values_length;
    uint8_t record_length;
    uint16_t record[KORRIGWEN_MOST_RECORD];
    struct {
        uint8_t which, part;
        uint16_t low;
    } number[4]; /* numbers of the forged state */
    struct {
        uint16_t place;
        uint8_t byte, unused;
    } mark[4]; /* bytes of the forged marks */
    uint16_t forged_budget;
    uint8_t forged_area;
    uint8_t forged_marks_length;
    uint8_t base; /* the forged state is made from that after so many pieces */
};

_Static_assert(sizeof(struct control) <= CONTROL, "the control bytes have room");

/* ---- the file part */

/* What is put right: the number of tables and the plan; masks and field counts; row counts below 7; offsets; the
 * length, with bodies filled; values 0 to 2; masks by the ear rule. Nothing is where the first is not. */
enum shape { TABLES = 1, MASKS = 2, FEW_ROWS = 4, OFFSETS = 8, LENGTH = 16, FEW_VALUES = 32, EARS = 64 };

static uint32_t number_at(const uint8_t *file, size_t at) {
    return file[at] | (uint32_t)file[at + 1] << 8 | (uint32_t)file[at + 2] << 16 | (uint32_t)file[at + 3] << 24;
}

static void put_number(uint8_t *file, size_t at, uint32_t n) {
    for (int i = 0; i < 4; i++)
        file[at + (size_t)i] = (uint8_t)(n >> 8 * i);
}

static size_t ones(uint32_t mask) { return (size_t)__builtin_popcount(mask); }

/* Makes k a number of tables and the plan bytes an order of them. */
static void shape_tables(uint8_t *file) {
    uint8_t left[8] = {0, 1, 2, 3, 4, 5, 6, 7};
    uint8_t k = (uint8_t)(1 + file[0] % 8);
    put_number(file, 0, k);
    for (uint8_t i = 0; i < 8; i++) {
        uint8_t pick = i < k ? file[4 + i] % (uint8_t)(k - i) : 0;
        file[4 + i] = i < k ? left[pick] : 0;
        memmove(left + pick, left + pick + 1, (size_t)(7 - pick));
    }
}

/* Leaves a table the columns that no earlier table has and those of one earlier table, so that the ear rule holds. */
static uint32_t ear_mask(const uint8_t *file, size_t position, uint32_t mask) {
    if (position == 0)
        return mask;
    size_t parent = file[4 + position - 1] % position;
    uint32_t above = number_at(file, 12 + 16u * file[4 + parent] + 8), seen = 0;
    for (size_t p = 0; p < position; p++)
        seen |= number_at(file, 12 + 16u * file[4 + p] + 8);
    mask &= above | ~seen;
    return mask ? mask : above;
}

/* Puts right one contents entry. */
static void shape_entry(uint8_t *file, size_t position, uint8_t shape) {
    size_t at = 12 + 16u * file[4 + position];
    uint32_t mask = number_at(file, at + 8), rows = number_at(file, at + 4);
    if (shape & EARS)
        mask = ear_mask(file, position, mask);
    while (ones(mask) > KORRIGWEN_MOST_TABLE_COLUMNS)
        mask &= mask - 1;
    if (mask == 0)
        mask = 1;
    if (shape & MASKS) {
        put_number(file, at, (uint32_t)ones(mask));
        put_number(file, at + 8, mask);
    }
    if (shape & FEW_ROWS)
        put_number(file, at + 4, rows % 7);
}

/* Makes each offset the running end, and answers where the last body ends. */
static size_t shape_offsets(uint8_t *file, size_t k, uint8_t shape) {
    size_t end = 12 + 16 * k;
    for (size_t e = 0; e < k; e++) {
        size_t at = 12 + 16 * e;
        if (shape & OFFSETS)
            put_number(file, at + 12, (uint32_t)end);
        end += (size_t)4 * (number_at(file, at) % 32) * (number_at(file, at + 4) % 8192);
    }
    return end;
}

/* The bodies go round the bytes that are there, so that a short input can have many rows. */
static void fill_bodies(uint8_t *file, size_t from, size_t size, size_t end, uint8_t shape) {
    for (size_t at = size < from ? from : size; at < end; at++)
        file[at] = size > from ? file[from + (at - from) % (size - from)] : 0;
    for (size_t at = from; (shape & FEW_VALUES) && at < end; at++)
        file[at] = (uint8_t)((at - from) % 4 == 0 ? file[at] % 3 : 0);
}

/* Puts right what the shape says of a file in a buffer of MOST_FILE + 1 bytes, and answers its length. */
static size_t shape_file(uint8_t *file, size_t size, uint8_t shape) {
    if (shape & TABLES)
        shape_tables(file);
    size_t k = number_at(file, 0);
    if (k == 0 || k > 8 || !(shape & TABLES))
        return size;
    for (size_t p = 0; p < k; p++)
        shape_entry(file, p, shape);
    size_t end = shape_offsets(file, k, shape);
    if (end > KORRIGWEN_MOST_FILE + 1 || !(shape & LENGTH))
        return size;
    fill_bodies(file, 12 + 16 * k, size, end, shape);
    return end;
}

#endif
