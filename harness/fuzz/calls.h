/* The library's functions as the fuzz target calls them: each call is followed by a look at everything that it
 * promises whatever it was handed, a refusal too. */
#ifndef CALLS_H
#define CALLS_H

#include "input.h"
#include "lent.h"
#include "reading.h"

/* ---- reading */

struct job {
    struct lent file;
    struct korrigwen_reading reading;
    struct control control;
    size_t k, rows, columns;
    size_t marks_at[8]; /* by entry */
};

static struct korrigwen_entry entry_at(const struct job *j, size_t position) {
    return j->reading.entries[j->reading.plan[position]];
}

static bool same_reading(const struct korrigwen_reading *a, const struct korrigwen_reading *b) {
    return a->number == b->number && a->place == b->place && a->k == b->k && memcmp(a->plan, b->plan, 8) == 0 &&
           memcmp(a->entries, b->entries, sizeof a->entries) == 0 &&
           memcmp(a->parents, b->parents, sizeof a->parents) == 0;
}

static void check_refused_reading(const struct job *j) {
    const struct korrigwen_reading *r = &j->reading;
    struct korrigwen_reading alone;
    memset(&alone, 0, sizeof alone);
    alone.number = r->number;
    alone.place = r->place;
    promise(same_reading(r, &alone), "a refused reading gives number and place only");
}

/* Document 01, "Ears and parents": the first earlier position whose table has all the keys. */
static void check_parents(const struct job *j) {
    uint32_t seen = entry_at(j, 0).mask;
    for (size_t p = 1; p < j->k; p++) {
        uint32_t keys = entry_at(j, p).mask & seen;
        size_t parent = 0;
        while (parent < p && (keys & ~entry_at(j, parent).mask) != 0)
            parent++;
        promise(parent < p && j->reading.parents[p] == parent, "the parent is the first that has all the keys");
        seen |= entry_at(j, p).mask;
    }
}

static void check_accepted_reading(struct job *j) {
    const struct korrigwen_reading *r = &j->reading;
    const uint8_t *file = front(j->file);
    uint32_t mask = 0;
    size_t end = 12 + 16 * r->k;
    promise(j->file.length <= KORRIGWEN_MOST_FILE && r->k >= 1 && r->k <= 8 && r->place == 0,
            "an accepted job is one");
    promise(number_at(file, 0) == r->k && memcmp(file + 4, r->plan, 8) == 0, "k and plan are the file's");
    for (size_t e = 0; e < 8; e++) {
        struct korrigwen_entry n = r->entries[e], none = {0, 0, 0, 0};
        promise(e < r->k || memcmp(&n, &none, sizeof n) == 0, "entries from k on are 0");
        promise(e < r->k ? r->plan[e] < r->k : r->parents[e] == 0, "plan bytes are tables, parents from k on are 0");
        promise(e > 0 || r->parents[0] == 0, "the root's parent is 0");
        promise(e >= r->k || (n.offset == end && n.fields == ones(n.mask)), "offsets and field counts fit");
        j->marks_at[e] = j->rows;
        j->rows += n.rows;
        end += (size_t)4 * n.fields * n.rows;
        mask |= n.mask;
    }
    promise(end == j->file.length && j->rows <= KORRIGWEN_MOST_MARKS, "bodies end with the file, rows are few");
    j->k = r->k;
    j->columns = ones(mask);
    check_parents(j);
}

static void read_job(struct job *j) {
    guard(j->file);
    j->reading = korrigwen_read(front(j->file), j->file.length);
    struct korrigwen_reading again = korrigwen_read(front(j->file), j->file.length);
    unguard(j->file);
    promise(untouched(j->file), "reading leaves the file as it came");
    promise(same_reading(&j->reading, &again), "reading twice gives the same");
    struct said said = reading_said(front(j->file), j->file.length);
    promise(j->reading.number == said.number && j->reading.place == said.place,
            "the first number that applies is given");
    if (j->reading.number != KORRIGWEN_ACCEPTED)
        check_refused_reading(j);
    else
        check_accepted_reading(j);
}

/* ---- beginning */

static const struct korrigwen_state NO_STATE, FRESH = {.kind = KORRIGWEN_KIND_ADVANCE};

static bool same_state(struct korrigwen_state a, struct korrigwen_state b) { return memcmp(&a, &b, sizeof a) == 0; }

/* What every operation answers before it comes to its own numbers: the reading's, then 12 where marks are lent. */
static void check_common(const struct job *j, const struct lent *marks, uint32_t number, size_t place) {
    const struct korrigwen_reading *r = &j->reading;
    if (r->number != KORRIGWEN_ACCEPTED)
        promise(number == r->number && place == r->place, "a bad file gets the reading's number and place");
    else if (marks != NULL && marks->length < j->rows)
        promise(number == KORRIGWEN_MARK_AREA && place == 0, "a short mark area gets 12 at 0");
    else
        promise(number == KORRIGWEN_ACCEPTED || (number > KORRIGWEN_MARK_AREA && place == 0),
                "no other number is given");
}

static struct korrigwen_begun begin(const struct job *j, struct lent marks) {
    guard(j->file);
    guard(marks);
    struct korrigwen_begun b = korrigwen_begin(front(j->file), j->file.length, front(marks), marks.length);
    unguard(marks);
    unguard(j->file);
    promise(untouched(j->file), "beginning leaves the file as it came");
    check_common(j, &marks, b.number, b.place);
    promise(b.number <= KORRIGWEN_MARK_AREA, "beginning gives 1 to 12");
    promise(same_state(b.state, b.number == KORRIGWEN_ACCEPTED ? FRESH : NO_STATE), "the state is fresh, or all 0");
    promise(untouched_from(marks, b.number == KORRIGWEN_ACCEPTED ? j->rows : 0),
            "beginning writes the job's marks alone");
    for (size_t i = 0; b.number == KORRIGWEN_ACCEPTED && i < j->rows; i++)
        promise(front(marks)[i] == 0, "beginning clears the job's marks");
    return b;
}

/* ---- running */

static uint32_t rows_at(const struct job *j, size_t position) { return entry_at(j, position).rows; }

/* Document 01: "It fits (else 13) when ...". */
static bool fits(const struct job *j, struct korrigwen_state s) {
    bool ended = s.kind == KORRIGWEN_KIND_ENDED, lookup = s.kind == KORRIGWEN_KIND_LOOKUP;
    if (s.kind > KORRIGWEN_KIND_LOOKUP || s.position >= j->k || (ended && s.position > 0))
        return false;
    if ((lookup && s.position == 0) || ((ended || lookup) && s.start > 0) || s.start > rows_at(j, s.position))
        return false;
    for (size_t p = 0; p < 8; p++)
        if (p < s.position ? s.chosen[p] >= rows_at(j, p) : s.chosen[p] != 0)
            return false;
    return s.steps <= KORRIGWEN_STEP_LIMIT && s.lookups <= s.steps && s.records <= s.steps;
}

static bool same_ran(struct korrigwen_ran a, struct korrigwen_ran b) {
    return a.number == b.number && a.place == b.place && a.reason == b.reason && same_state(a.state, b.state);
}

static struct korrigwen_ran run_once(const struct job *j, struct korrigwen_state s, struct lent marks, uint32_t budget,
                                     struct lent area) {
    guard(j->file);
    guard(marks);
    guard(area);
    struct korrigwen_ran r = korrigwen_run(front(j->file), j->file.length, s, front(marks), marks.length, budget,
                                           numbers(area), area.length / 4);
    unguard(area);
    unguard(marks);
    unguard(j->file);
    return r;
}

/* The marks that a call changed; each has to be one of the job's and to be 1 now. */
static size_t newly_marked(const struct job *j, struct lent marks) {
    size_t changed = 0;
    for (size_t i = 0; i < marks.length; i++) {
        if (front(marks)[i] == marks.before[i])
            continue;
        promise(i < j->rows && front(marks)[i] == 1, "marking writes 1 to a byte of the job's rows");
        changed++;
    }
    return changed;
}

static void check_reason(const struct job *j, struct korrigwen_ran r, uint32_t taken, uint32_t budget, size_t free) {
    bool ended = r.state.kind == KORRIGWEN_KIND_ENDED, limit = r.state.steps == KORRIGWEN_STEP_LIMIT;
    uint32_t reason = ended             ? KORRIGWEN_ENDED
                      : limit           ? KORRIGWEN_AT_STEP_LIMIT
                      : taken == budget ? KORRIGWEN_BUDGET_SPENT
                                        : KORRIGWEN_NO_ROOM;
    promise(r.reason == reason, "the first reason that holds is given");
    promise(reason != KORRIGWEN_NO_ROOM || free < j->k, "no room means fewer than k free places");
}

static void check_stopped(const struct job *j, struct korrigwen_state s, struct korrigwen_ran r, struct lent marks,
                          uint32_t budget, struct lent area) {
    struct korrigwen_state t = r.state;
    promise(t.steps >= s.steps && t.lookups >= s.lookups && t.records >= s.records, "counts do not go down");
    uint32_t taken = t.steps - s.steps, handed = t.records - s.records;
    promise(taken <= budget && t.steps <= KORRIGWEN_STEP_LIMIT, "steps keep to budget and limit");
    promise(t.lookups - s.lookups <= taken && handed <= taken, "a step is at most one lookup and one record");
    promise((size_t)handed * j->k * 4 <= area.length, "the records fit into the area");
    promise(untouched_from(area, (size_t)handed * j->k * 4), "places after the last record are untouched");
    promise(newly_marked(j, marks) <= t.lookups - s.lookups, "a lookup marks at most one row");
    for (size_t i = 0; i < handed * j->k; i++)
        promise(numbers(area)[i] < rows_at(j, i % j->k), "a record's rows are in range");
    check_reason(j, r, taken, budget, area.length / 4 - handed * j->k);
    promise(fits(j, t), "a state that is handed back fits");
}

/* A run call, made twice on equal areas, and all that it promises whatever state and marks it was handed. */
static struct korrigwen_ran run(const struct job *j, struct korrigwen_state s, struct lent marks, uint32_t budget,
                                struct lent area) {
    struct lent marks_too = lend(front(marks), marks.length), area_too = lend(front(area), area.length);
    struct korrigwen_ran r = run_once(j, s, marks, budget, area);
    struct korrigwen_ran again = run_once(j, s, marks_too, budget, area_too);
    promise(same_ran(r, again), "the same call gives the same answer");
    promise(memcmp(front(marks), front(marks_too), marks.length) == 0, "the same call leaves the same marks");
    promise(memcmp(front(area), front(area_too), area.length) == 0, "the same call leaves the same area");
    give_back(marks_too);
    give_back(area_too);
    promise(untouched(j->file), "running leaves the file as it came");
    check_common(j, &marks, r.number, r.place);
    promise(r.number <= KORRIGWEN_STATE && r.reason <= KORRIGWEN_NO_ROOM, "running gives 1 to 13, and four reasons");
    if (r.number == KORRIGWEN_ACCEPTED) {
        promise(fits(j, s), "a state that does not fit gets 13");
        check_stopped(j, s, r, marks, budget, area);
        return r;
    }
    promise(r.number != KORRIGWEN_STATE || !fits(j, s), "13 means that the state does not fit");
    promise(r.reason == 0 && same_state(r.state, NO_STATE), "a refused run gives number and place only");
    promise(untouched(marks) && untouched(area), "a refused run leaves every lent area as it came");
    return r;
}

/* ---- joining values */

/* The value of a record at a column, by the first position that has it. False where two of its rows disagree. */
static bool value_of(const struct job *j, const uint32_t *record, uint32_t column, int32_t *value) {
    bool found = false;
    for (size_t p = 0; p < j->k; p++) {
        struct korrigwen_entry e = entry_at(j, p);
        if (!(e.mask >> column & 1))
            continue;
        size_t field = ones(e.mask & ((UINT32_C(1) << column) - 1));
        int32_t here = (int32_t)number_at(front(j->file), e.offset + 4 * ((size_t)e.fields * record[p] + field));
        if (found && here != *value)
            return false;
        found = true;
        *value = here;
    }
    return true;
}

static bool record_fits(const struct job *j, const uint32_t *record, size_t length) {
    int32_t value = 0;
    for (size_t p = 0; p < j->k; p++)
        if (length != j->k || record[p] >= rows_at(j, p))
            return false;
    for (uint32_t c = 0; c < KORRIGWEN_COLUMNS; c++)
        if (!value_of(j, record, c, &value))
            return false;
    return true;
}

static void check_values(const struct job *j, const uint32_t *record, const int32_t *values) {
    uint32_t mask = 0;
    for (size_t p = 0; p < j->k; p++)
        mask |= entry_at(j, p).mask;
    for (uint32_t c = 0; c < KORRIGWEN_COLUMNS; c++) {
        int32_t value = 0;
        if (!(mask >> c & 1))
            continue;
        value_of(j, record, c, &value);
        promise(value == *values++, "joined values are the record's, ascending by column");
    }
}

static void join(const struct job *j, const uint32_t *record, size_t length, size_t values_length) {
    struct lent lent_record = lend(record, 4 * length), values = lend_filled(j->control.old, 4 * values_length);
    guard(j->file);
    guard(lent_record);
    guard(values);
    struct korrigwen_joined a = korrigwen_join_values(front(j->file), j->file.length, numbers(lent_record), length,
                                                      (int32_t *)numbers(values), values_length);
    unguard(values);
    unguard(lent_record);
    unguard(j->file);
    promise(untouched(j->file) && untouched(lent_record), "joining values leaves file and record as they came");
    check_common(j, NULL, a.number, a.place);
    if (j->reading.number == KORRIGWEN_ACCEPTED) {
        bool fit = record_fits(j, record, length), room = values_length >= j->columns;
        uint32_t number = !fit ? KORRIGWEN_RECORD : !room ? KORRIGWEN_VALUE_AREA : KORRIGWEN_ACCEPTED;
        promise(a.number == number,
                "14 exactly where the record does not fit, then 15 exactly where there is no room");
    }
    promise(a.columns == (a.number == KORRIGWEN_ACCEPTED ? j->columns : 0), "the answer is the number of columns");
    promise(untouched_from(values, 4 * a.columns), "later places of the value area are untouched");
    if (a.number == KORRIGWEN_ACCEPTED)
        check_values(j, record, (int32_t *)numbers(values));
    give_back(lent_record);
    give_back(values);
}

#endif
