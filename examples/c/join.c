/* join FILE: runs the job in FILE through include/korrigwen.h and prints what ./korrigwen prints.
 *
 *     cc -std=c11 -Wall -Wextra -Iinclude examples/c/join.c target/staticlib/libkorrigwen_c.a -o join
 *
 * A page that takes jobs from strangers would do the same, and look at its clock and its memory between calls: all
 * that a run needs is the file, the marks and the state, and each call is bounded by its budget and its area. */
#include <inttypes.h>
#include <stdbool.h>
#include <stdio.h>

#include "korrigwen.h"

enum { BUDGET = 1000, AREA = 64 };

struct job {
    uint8_t file[KORRIGWEN_MOST_FILE + 1]; /* one byte more than a job may have, so that a longer file shows */
    size_t length;
    struct korrigwen_reading reading;
    uint8_t marks[KORRIGWEN_MOST_MARKS];
};

static int refused(uint32_t number, size_t place) {
    printf("refused %" PRIu32 " at %zu\n", number, place);
    return 0;
}

static void print_record(const struct job *job, const uint32_t *record) {
    int32_t values[KORRIGWEN_MOST_VALUES];
    struct korrigwen_joined joined =
        korrigwen_join_values(job->file, job->length, record, job->reading.k, values, KORRIGWEN_MOST_VALUES);
    for (size_t i = 0; i < joined.columns; i++)
        printf("%s%" PRId32, i ? " " : "", values[i]);
    printf("\n");
}

static void print_figures(const struct job *job, struct korrigwen_state state, bool stopped) {
    size_t rows = 0, marked = 0;
    for (size_t e = 0; e < job->reading.k; e++)
        rows += job->reading.entries[e].rows;
    for (size_t row = 0; row < rows; row++)
        marked += job->marks[row] != 0;
    printf("%slookups %" PRIu32 " results %" PRIu32 " marked %zu steps %" PRIu32 "\n", stopped ? "stopped " : "",
           state.lookups, state.records, marked, state.steps);
}

/* Takes the state by value and hands it on from call to call; it might as well be stored between them. */
static int run(struct job *job, struct korrigwen_state state) {
    uint32_t area[AREA];
    for (;;) {
        struct korrigwen_ran ran =
            korrigwen_run(job->file, job->length, state, job->marks, sizeof job->marks, BUDGET, area, AREA);
        if (ran.number != KORRIGWEN_ACCEPTED)
            return refused(ran.number, ran.place);
        for (uint32_t r = 0; r < ran.state.records - state.records; r++)
            print_record(job, area + r * job->reading.k);
        state = ran.state;
        if (ran.reason == KORRIGWEN_ENDED || ran.reason == KORRIGWEN_AT_STEP_LIMIT) {
            print_figures(job, state, ran.reason == KORRIGWEN_AT_STEP_LIMIT);
            return 0;
        }
    }
}

int main(int argc, char **argv) {
    static struct job job;
    FILE *in = argc == 2 ? fopen(argv[1], "rb") : NULL;
    if (in == NULL) {
        fprintf(stderr, "usage: join FILE\n");
        return 2;
    }
    job.length = fread(job.file, 1, sizeof job.file, in);
    fclose(in);
    job.reading = korrigwen_read(job.file, job.length);
    if (job.reading.number != KORRIGWEN_ACCEPTED)
        return refused(job.reading.number, job.reading.place);
    struct korrigwen_begun begun = korrigwen_begin(job.file, job.length, job.marks, sizeof job.marks);
    if (begun.number != KORRIGWEN_ACCEPTED)
        return refused(begun.number, begun.place);
    return run(&job, begun.state);
}
