#include <stdio.h>

#include "call.h"

static struct guarded jobs_buffer;

void call_start_rounds(void)
{
    jobs_buffer = guarded_buffer(TABLE_ROOM);
}

bool compare_rounds(struct numbers *numbers, const struct table *tasks, size_t jobs_length, struct table *jobs)
{
    static struct table table;
    struct paper_jobs released;
    call_begin();
    struct paper_bytes t = call_lend(numbers, TASKS, tasks);
    uint8_t seed = any_byte(numbers);
    struct part part = guarded_part(&jobs_buffer, jobs_length, seed & 1);
    guarded_set_pattern(&jobs_buffer, part, seed);
    struct ramyearly_rounds_answer found = ramyearly_rounds(t.at, t.length, jobs_buffer.lent + part.start, jobs_length);
    struct ramyearly_rounds_answer wanted = paper_rounds(t, jobs_length, &released);
    same("number", found.number, wanted.number);
    same("place", found.place, wanted.place);
    same("length", found.length, wanted.length);
    same("multiple", found.multiple, wanted.multiple);
    if (wanted.number == 0) {
        jobs_table(&table, &released);
        same("the job table's length", (int64_t)table.length, wanted.length);
        same_bytes("job table", &jobs_buffer, part, bytes_of(&table));
    }
    same("the job buffer's rest stays", guarded_has_pattern_from(&jobs_buffer, part, wanted.length, seed), 1);
    if (!call_agrees())
        printf("  a job buffer of %zu bytes\n", jobs_length);
    bool came_out = found.number == 0 && call_agrees();
    if (came_out)
        table_keep(jobs, (struct paper_bytes) { jobs_buffer.lent + part.start, found.length });
    call_end("rounds", found.number);
    return came_out;
}
