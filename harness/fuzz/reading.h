/* Which number and place reading has to give for a file, in document 01's order: "The job file", "Numbers given back"
 * and "Ears and parents", read once more. */
#ifndef READING_H
#define READING_H

#include <stdbool.h>

#include "input.h"

struct said {
    uint32_t number;
    size_t place;
};

static const struct said ACCEPTED = {KORRIGWEN_ACCEPTED, 0};

/* The first plan byte that is too high, repeated, or not 0 after the plan. */
static struct said plan_said(const uint8_t *plan, size_t k) {
    for (size_t i = 0; i < 8; i++) {
        bool faulty = i < k ? plan[i] >= k : plan[i] != 0;
        for (size_t earlier = 0; earlier < i && i < k; earlier++)
            faulty = faulty || plan[earlier] == plan[i];
        if (faulty)
            return (struct said){KORRIGWEN_PLAN, i};
    }
    return ACCEPTED;
}

/* What is wrong with the numbers of a contents entry; 64 bits hold 4 times any two of them that are in range. */
static uint32_t entry_said(uint64_t fields, uint64_t rows, uint32_t mask, uint64_t offset, uint64_t end,
                           uint64_t length) {
    if (mask == 0 || ones(mask) > KORRIGWEN_MOST_TABLE_COLUMNS)
        return KORRIGWEN_MASK;
    if (fields != ones(mask))
        return KORRIGWEN_FIELDS;
    if (rows > KORRIGWEN_MOST_ROWS)
        return KORRIGWEN_ROWS;
    if (offset != end)
        return KORRIGWEN_OFFSET;
    return end + 4 * fields * rows > length ? KORRIGWEN_BODY : KORRIGWEN_ACCEPTED;
}

static struct said entries_said(const uint8_t *file, size_t length, size_t k) {
    uint64_t end = 12 + 16 * k;
    for (size_t e = 0; e < k; e++) {
        size_t at = 12 + 16 * e;
        uint64_t fields = number_at(file, at), rows = number_at(file, at + 4);
        uint32_t wrong = entry_said(fields, rows, number_at(file, at + 8), number_at(file, at + 12), end, length);
        if (wrong != KORRIGWEN_ACCEPTED)
            return (struct said){wrong, e};
        end += 4 * fields * rows;
    }
    return end < length ? (struct said){KORRIGWEN_TRAILING, 0} : ACCEPTED;
}

static uint32_t mask_at(const uint8_t *file, size_t position) {
    return number_at(file, 12 + 16u * file[4 + position] + 8);
}

/* The first position whose keys no earlier table has all of. */
static struct said ears_said(const uint8_t *file, size_t k) {
    uint32_t seen = mask_at(file, 0);
    for (size_t p = 1; p < k; p++) {
        uint32_t keys = mask_at(file, p) & seen;
        size_t parent = 0;
        while (parent < p && (keys & ~mask_at(file, parent)) != 0)
            parent++;
        if (parent == p)
            return (struct said){KORRIGWEN_EAR, p};
        seen |= mask_at(file, p);
    }
    return ACCEPTED;
}

static struct said reading_said(const uint8_t *file, size_t length) {
    if (length < KORRIGWEN_LEAST_FILE || length > KORRIGWEN_MOST_FILE)
        return (struct said){KORRIGWEN_LENGTH, 0};
    size_t k = number_at(file, 0);
    if (k == 0 || k > KORRIGWEN_MOST_TABLES)
        return (struct said){KORRIGWEN_TABLES, 0};
    if (length < 12 + 16 * k)
        return (struct said){KORRIGWEN_CONTENTS, 0};
    struct said plan = plan_said(file + 4, k);
    if (plan.number != KORRIGWEN_ACCEPTED)
        return plan;
    struct said entries = entries_said(file, length, k);
    return entries.number != KORRIGWEN_ACCEPTED ? entries : ears_said(file, k);
}

#endif
