/* Korrigwen for C: reading a job file, beginning and running its join, and joining a record's values.
 * Link with target/staticlib/libkorrigwen_c.a (x86-64 Linux, a processor of the level x86-64-v2), which
 * `tools/build.sh korrigwen_c` writes.
 *
 * No function asks its caller to check anything first: a bad file, mark area, state or record gets a number
 * with a place, and then no lent area has been written to. What the caller owes is that each pointer is good
 * for its length, that no two lent areas overlap where one of them is written, and that a pointer with length
 * 0 is not null and is aligned for its type.
 *
 * A function keeps nothing between calls, uses no heap and no global variable, and may be called from
 * several threads at once, on areas of their own. */
#ifndef KORRIGWEN_H
#define KORRIGWEN_H

#include <stddef.h>
#include <stdint.h>

#ifdef __cplusplus
extern "C" {
#endif

/* Limits. */
#define KORRIGWEN_LEAST_FILE 12
#define KORRIGWEN_MOST_FILE 65535
#define KORRIGWEN_MOST_TABLES 8
#define KORRIGWEN_COLUMNS 32           /* column numbers are below this */
#define KORRIGWEN_MOST_TABLE_COLUMNS 16
#define KORRIGWEN_MOST_ROWS 4096       /* of one table */
#define KORRIGWEN_MOST_MARKS 16383     /* bytes that every job's marks fit into: one per row of all tables */
#define KORRIGWEN_MOST_RECORD 8        /* row numbers of a record: one per table */
#define KORRIGWEN_MOST_VALUES 32       /* values of a record: one per distinct column */
#define KORRIGWEN_STEP_LIMIT 16777216  /* steps of one run, over all its calls */

/* The numbers given back; the place is 0 where nothing else is said. The first that applies in this order is
 * given, except that 5 to 9 are tried for entry 0, then for entry 1, and so on. */
enum korrigwen_number {
    KORRIGWEN_ACCEPTED = 0,
    KORRIGWEN_LENGTH = 1,      /* file shorter than 12 bytes or longer than 65,535 */
    KORRIGWEN_TABLES = 2,      /* no table, or more than 8 */
    KORRIGWEN_CONTENTS = 3,    /* file ends before its contents entries do */
    KORRIGWEN_PLAN = 4,        /* faulty plan byte; place: which one, 0 to 7 */
    KORRIGWEN_MASK = 5,        /* mask with no column or more than 16; place: entry */
    KORRIGWEN_FIELDS = 6,      /* field count is not the mask's; place: entry */
    KORRIGWEN_ROWS = 7,        /* more than 4,096 rows; place: entry */
    KORRIGWEN_OFFSET = 8,      /* offset is not the running end; place: entry */
    KORRIGWEN_BODY = 9,        /* body ends past the file; place: entry */
    KORRIGWEN_TRAILING = 10,   /* bytes left after the last body */
    KORRIGWEN_EAR = 11,        /* plan fails the ear rule; place: plan position */
    KORRIGWEN_MARK_AREA = 12,  /* mark area shorter than the total of rows */
    KORRIGWEN_STATE = 13,      /* state does not fit the job */
    KORRIGWEN_RECORD = 14,     /* record does not fit the job */
    KORRIGWEN_VALUE_AREA = 15  /* value area shorter than the number of distinct columns */
};

/* Why a run stopped, in the order in which it is tested before each step. */
enum korrigwen_reason {
    KORRIGWEN_ENDED = 0,
    KORRIGWEN_AT_STEP_LIMIT = 1,
    KORRIGWEN_BUDGET_SPENT = 2,
    KORRIGWEN_NO_ROOM = 3      /* fewer free places than the job has tables */
};

enum korrigwen_kind { KORRIGWEN_KIND_ENDED = 0, KORRIGWEN_KIND_ADVANCE = 1, KORRIGWEN_KIND_LOOKUP = 2 };

/* A contents entry, as the file has it. */
struct korrigwen_entry {
    uint32_t fields;
    uint32_t rows;
    uint32_t mask;
    uint32_t offset;
};

/* Number and place, and where the number is 0 the job; otherwise all the rest is 0. Entries are in contents
 * order, parents in plan order; the root's parent and all places from k on are 0. */
struct korrigwen_reading {
    uint32_t number;
    size_t place;
    size_t k;
    uint8_t plan[8];
    struct korrigwen_entry entries[8];
    size_t parents[8];
};

/* A state of a run. It holds all that a run needs beside file and marks, so it can be kept, sent on and
 * handed in again; it is tested each time, and one that does not fit the job gets 13. */
struct korrigwen_state {
    uint32_t kind;             /* of the next step: enum korrigwen_kind */
    uint32_t position;
    uint32_t start;
    uint32_t chosen[8];
    uint32_t steps;
    uint32_t lookups;
    uint32_t records;
};

struct korrigwen_begun {
    uint32_t number;
    size_t place;
    struct korrigwen_state state;   /* the fresh state; all 0 in a refusal */
};

struct korrigwen_ran {
    uint32_t number;
    size_t place;
    uint32_t reason;                /* enum korrigwen_reason; 0 in a refusal */
    struct korrigwen_state state;   /* the next state; all 0 in a refusal */
};

struct korrigwen_joined {
    uint32_t number;
    size_t place;
    size_t columns;                 /* 0 in a refusal */
};

/* Reads and checks a job file: 1 to 11, or the job. */
struct korrigwen_reading korrigwen_read(const uint8_t *file, size_t file_length);

/* Begins a run: 1 to 12, or the fresh state; then the bytes of the job's rows are 0, and no other is written. */
struct korrigwen_begun korrigwen_begin(const uint8_t *file, size_t file_length, uint8_t *marks, size_t marks_length);

/* Takes at most `budget` steps: 1 to 13, or why it stopped and the next state. The records that this call
 * completed stand at the front of the area, k row numbers each in plan order; there are as many as
 * state.records went up, and later places are untouched. Marking writes 1 to bytes of the job's rows. */
struct korrigwen_ran korrigwen_run(const uint8_t *file, size_t file_length, struct korrigwen_state state,
                                   uint8_t *marks, size_t marks_length, uint32_t budget, uint32_t *area,
                                   size_t area_length);

/* Joins a record's values: 1 to 11, 14, 15, or the number of distinct columns, whose values, ascending by
 * column, stand at the front of the value area; later places are untouched. */
struct korrigwen_joined korrigwen_join_values(const uint8_t *file, size_t file_length, const uint32_t *record,
                                              size_t record_length, int32_t *values, size_t values_length);

#ifdef __cplusplus
}
#endif

#endif
