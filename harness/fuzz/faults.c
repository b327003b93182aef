/* Deliberate faults, to see that the fuzz target finds them: each FAULT breaks one promise, where its condition is
 * met. Linked with -Wl,--wrap=..., so that the target's calls come here and go on to the library. faults.sh tries them
 * all. */
#include "korrigwen.h"

struct korrigwen_reading __real_korrigwen_read(const uint8_t *, size_t);
struct korrigwen_begun __real_korrigwen_begin(const uint8_t *, size_t, uint8_t *, size_t);
struct korrigwen_ran __real_korrigwen_run(const uint8_t *, size_t, struct korrigwen_state, uint8_t *, size_t, uint32_t,
                                          uint32_t *, size_t);
struct korrigwen_joined __real_korrigwen_join_values(const uint8_t *, size_t, const uint32_t *, size_t, int32_t *,
                                                     size_t);

/* 1: the place of refusal 9 is one too high. */
struct korrigwen_reading __wrap_korrigwen_read(const uint8_t *file, size_t file_length) {
    struct korrigwen_reading r = __real_korrigwen_read(file, file_length);
    if (FAULT == 1 && r.number == KORRIGWEN_BODY)
        r.place++;
    return r;
}

/* 2: one mark more is cleared than the job has rows. */
struct korrigwen_begun __wrap_korrigwen_begin(const uint8_t *file, size_t file_length, uint8_t *marks,
                                              size_t marks_length) {
    struct korrigwen_begun b = __real_korrigwen_begin(file, file_length, marks, marks_length);
    size_t rows = 0;
    for (size_t e = 0; e < 8; e++)
        rows += __real_korrigwen_read(file, file_length).entries[e].rows;
    if (FAULT == 2 && b.number == KORRIGWEN_ACCEPTED && rows < marks_length)
        marks[rows] = 0;
    return b;
}

/* 3: a byte after the mark area is written when the third lookup is counted. 4: a mark is written as 2. 5: a number
 * after the last record is written. 6: a refused state clears the first mark. 7: a lookup too many is counted when
 * there is no room. 8: a starting row one too high is taken. 9: a byte after the file is read. 10: the last record of
 * a call has a row one too high. */
struct korrigwen_ran __wrap_korrigwen_run(const uint8_t *file, size_t file_length, struct korrigwen_state state,
                                          uint8_t *marks, size_t marks_length, uint32_t budget, uint32_t *area,
                                          size_t area_length) {
    struct korrigwen_reading job = __real_korrigwen_read(file, file_length);
    if (FAULT == 8 && job.k > 1 && state.kind == KORRIGWEN_KIND_ADVANCE && state.position == 1 &&
        state.start == job.entries[job.plan[1]].rows + 1)
        state.start--;
    struct korrigwen_ran r =
        __real_korrigwen_run(file, file_length, state, marks, marks_length, budget, area, area_length);
    size_t filled = r.number == KORRIGWEN_ACCEPTED ? job.k * (r.state.records - state.records) : 0;
    if (FAULT == 3 && state.lookups < 3 && r.state.lookups >= 3)
        marks[marks_length] = 1;
    for (size_t i = 0; FAULT == 4 && r.number == KORRIGWEN_ACCEPTED && i < marks_length; i++)
        if (marks[i] == 1 && i > 4)
            marks[i] = 2;
    if (FAULT == 5 && filled > 0 && filled < area_length)
        area[filled] = 0;
    if (FAULT == 6 && r.number == KORRIGWEN_STATE && marks_length > 0)
        marks[0] = 0;
    if (FAULT == 7 && r.reason == KORRIGWEN_NO_ROOM && r.state.lookups > 2 && r.state.lookups < r.state.steps)
        r.state.lookups++;
    if (FAULT == 9 && r.state.steps > 20) {
        volatile uint8_t beyond = file[file_length];
        (void)beyond;
    }
    if (FAULT == 10 && filled > 0)
        area[filled - 1]++;
    return r;
}

/* 11: a value area that is one place short is taken, and the last value is lost. */
struct korrigwen_joined __wrap_korrigwen_join_values(const uint8_t *file, size_t file_length, const uint32_t *record,
                                                     size_t record_length, int32_t *values, size_t values_length) {
    struct korrigwen_joined a =
        __real_korrigwen_join_values(file, file_length, record, record_length, values, values_length);
    if (FAULT == 11 && a.number == KORRIGWEN_VALUE_AREA && values_length > 0)
        a.number = KORRIGWEN_ACCEPTED;
    return a;
}
