/* Measures what a call of the library can cost. worst.sh builds and runs it on the jobs of make_jobs.py.
 *
 *     worst run JOB BUDGET AREA [STEPS]   the run in calls of a budget and an area, to its end or to so many steps
 *     worst rows JOB STEPS                the rows that its first steps look at, each step a call of its own
 *     worst step JOB                      its second step, the lookup at position 1, again and again
 *     worst calls JOB                     reading, beginning, a run call with budget 0, joining a record's values
 *     worst stack JOB                     how deep each function goes, on a stack painted before */
#define _GNU_SOURCE
#include <inttypes.h>
#include <pthread.h>
#include <stdio.h>
#include <stdlib.h>
#include <string.h>
#include <time.h>

#include "korrigwen.h"

enum { PAINT = 0xC3, STACK = 1 << 20, TIMES = 200000, MOST_AREA = 1 << 16 };

static uint8_t file[KORRIGWEN_MOST_FILE + 1];
static size_t length;
static uint8_t marks[KORRIGWEN_MOST_MARKS];
static uint32_t area[MOST_AREA];
static struct korrigwen_reading job;
static uint32_t record[KORRIGWEN_MOST_RECORD];
static struct korrigwen_state state;

static double clock_of(clockid_t which) {
    struct timespec t;
    clock_gettime(which, &t);
    return (double)t.tv_sec + 1e-9 * (double)t.tv_nsec;
}

/* Runs are measured in processor time, so that other work on the machine counts less; the clock for that takes too
 * long for single calls. */
static double used(void) { return clock_of(CLOCK_PROCESS_CPUTIME_ID); }
static double now(void) { return clock_of(CLOCK_MONOTONIC); }

static struct korrigwen_ran run(uint32_t budget, size_t area_length) {
    return korrigwen_run(file, length, state, marks, sizeof marks, budget, area, area_length);
}

static void begin(void) { state = korrigwen_begin(file, length, marks, sizeof marks).state; }

/* ---- a whole run */

static int measure_run(uint32_t budget, size_t area_length, uint32_t steps) {
    double start = used(), slowest = 0;
    uint32_t calls = 0;
    struct korrigwen_ran ran = {0};
    begin();
    do {
        double before = used(), took;
        ran = run(budget, area_length);
        state = ran.state;
        calls++;
        took = used() - before;
        slowest = took > slowest ? took : slowest;
    } while (ran.number == KORRIGWEN_ACCEPTED && ran.reason >= KORRIGWEN_BUDGET_SPENT && state.steps < steps);
    double seconds = used() - start;
    printf("%" PRIu32 " calls, %" PRIu32 " steps, %" PRIu32
           " records, %.2f s, %.0f ns a step, slowest call %.3f ms, %s\n",
           calls, state.steps, state.records, seconds, 1e9 * seconds / state.steps, 1e3 * slowest,
           ran.reason == KORRIGWEN_ENDED           ? "ended"
           : ran.reason == KORRIGWEN_AT_STEP_LIMIT ? "at the step limit"
                                                   : "cut");
    return 0;
}

/* ---- rows looked at: from the row to start from to the one chosen, or to the last */

static uint32_t looked_at(struct korrigwen_state from, struct korrigwen_state to) {
    uint32_t p = from.position, rows = job.entries[job.plan[p]].rows;
    if (p + 1 == job.k)
        return to.records > from.records ? to.start - from.start : rows - from.start;
    return to.kind == KORRIGWEN_KIND_LOOKUP ? to.chosen[p] + 1 - from.start : rows - from.start;
}

static int measure_rows(uint32_t steps) {
    uint64_t total = 0;
    uint32_t most = 0;
    begin();
    while (state.steps < steps && state.kind != KORRIGWEN_KIND_ENDED && state.steps < KORRIGWEN_STEP_LIMIT) {
        struct korrigwen_ran ran = run(1, job.k);
        uint32_t rows = looked_at(state, ran.state);
        total += rows;
        most = rows > most ? rows : most;
        state = ran.state;
    }
    printf("%" PRIu32 " steps looked at %" PRIu64 " rows, %.0f a step, at most %" PRIu32 "; %.3g in %d steps\n",
           state.steps, total, (double)total / state.steps, most, (double)total / state.steps * KORRIGWEN_STEP_LIMIT,
           KORRIGWEN_STEP_LIMIT);
    return 0;
}

/* ---- single calls */

static void do_nothing(void) {}
static void do_read(void) { job = korrigwen_read(file, length); }
static void do_begin(void) { begin(); }
static void do_run_0(void) { run(0, job.k); }
static void do_run_1(void) { run(1, job.k); }
static void do_join(void) {
    int32_t values[KORRIGWEN_MOST_VALUES];
    korrigwen_join_values(file, length, record, job.k, values, KORRIGWEN_MOST_VALUES);
}

static void measure_call(const char *name, void (*call)(void), int times) {
    double best = 1e9, total = 0;
    for (int i = 0; i < times; i++) {
        double before = now();
        call();
        double took = now() - before;
        total += took;
        best = took < best ? took : best;
    }
    printf("%-24s %9.2f us on average, %9.2f us at best\n", name, 1e6 * total / times, 1e6 * best);
}

static int measure_calls(void) {
    measure_call("(the clock)", do_nothing, TIMES);
    measure_call("korrigwen_read", do_read, TIMES);
    measure_call("korrigwen_begin", do_begin, TIMES);
    measure_call("korrigwen_run, budget 0", do_run_0, TIMES);
    measure_call("korrigwen_join_values", do_join, TIMES);
    return 0;
}

/* The first step chooses the root's row; the second is the lookup at position 1. */
static int measure_step(void) {
    begin();
    state = run(1, job.k).state;
    measure_call("one step", do_run_1, 2000);
    return 0;
}

/* ---- stack */

static void (*painted_call)(void);

static void *call_on_stack(void *unused) {
    painted_call();
    return unused;
}

/* The bytes of a painted stack that were written, from its lowest on. */
static size_t depth(void (*call)(void)) {
    static uint8_t stack[STACK] __attribute__((aligned(4096)));
    pthread_attr_t attributes;
    pthread_t thread;
    size_t clean = 0;
    memset(stack, PAINT, sizeof stack);
    painted_call = call;
    pthread_attr_init(&attributes);
    pthread_attr_setstack(&attributes, stack, sizeof stack);
    if (pthread_create(&thread, &attributes, call_on_stack, NULL) != 0)
        return 0;
    pthread_join(thread, NULL);
    while (clean < sizeof stack && stack[clean] == PAINT)
        clean++;
    return sizeof stack - clean;
}

static void do_run_all(void) { run(100000, MOST_AREA); }

static int measure_stack(void) {
    struct {
        const char *name;
        void (*call)(void);
    } calls[] = {
        {"korrigwen_read", do_read},
        {"korrigwen_begin", do_begin},
        {"korrigwen_run", do_run_all},
        {"korrigwen_join_values", do_join},
    };
    size_t thread_alone = depth(do_nothing);
    printf("%-24s %6zu bytes, left out below\n", "(the thread)", thread_alone);
    for (size_t i = 0; i < sizeof calls / sizeof *calls; i++) {
        begin();
        printf("%-24s %6zu bytes\n", calls[i].name, depth(calls[i].call) - thread_alone);
    }
    return 0;
}

int main(int argc, char **argv) {
    const char *mode = argc > 2 ? argv[1] : "";
    FILE *in = argc > 2 ? fopen(argv[2], "rb") : NULL;
    if (in == NULL)
        return 2;
    length = fread(file, 1, sizeof file, in);
    fclose(in);
    job = korrigwen_read(file, length);
    if (job.number != KORRIGWEN_ACCEPTED)
        return 2;
    begin();
    uint32_t numbers[3] = {0, 0, UINT32_MAX};
    for (int i = 3; i < argc && i < 6; i++)
        numbers[i - 3] = (uint32_t)strtoul(argv[i], NULL, 10);
    if (strcmp(mode, "run") == 0)
        return measure_run(numbers[0], numbers[1] < MOST_AREA ? numbers[1] : MOST_AREA, numbers[2]);
    if (strcmp(mode, "rows") == 0)
        return measure_rows(numbers[0]);
    if (strcmp(mode, "step") == 0)
        return measure_step();
    if (strcmp(mode, "calls") == 0)
        return measure_calls();
    if (strcmp(mode, "stack") == 0)
        return measure_stack();
    return 2;
}
