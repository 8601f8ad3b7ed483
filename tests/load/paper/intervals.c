/* Intervals, and the jobs that are open in each. */
#include <stdlib.h>

#include "paper.h"

static int by_size(const void *a, const void *b)
{
    uint32_t x = *(const uint32_t *)a, y = *(const uint32_t *)b;
    return (x > y) - (x < y);
}

void paper_sort(uint32_t *numbers, unsigned count)
{
    if (count > 0)
        qsort(numbers, count, sizeof *numbers, by_size);
}

/* All releases and deadlines, and the marks that are bounds too, sorted, without repeats. Answers their number. */
static unsigned bounds(const struct paper_jobs *jobs, const struct paper_marks *marks, uint32_t bound[PAPER_BOUNDS])
{
    uint32_t times[PAPER_BOUNDS];
    unsigned count = 0, kept = 0;
    for (unsigned j = 0; j < jobs->count; j++) {
        times[count++] = jobs->release[j];
        times[count++] = jobs->deadline[j];
    }
    for (unsigned i = 0; i < marks->count; i++)
        if (paper_mark_is_bound(jobs, marks->tick[i]))
            times[count++] = marks->tick[i];
    paper_sort(times, count);
    for (unsigned i = 0; i < count; i++)
        if (i == 0 || times[i] != times[i - 1])
            bound[kept++] = times[i];
    return kept;
}

struct paper_intervals paper_intervals(const struct paper_jobs *jobs, const struct paper_marks *marks)
{
    struct paper_intervals intervals = { .count = 0 };
    unsigned times = bounds(jobs, marks, intervals.bound);
    intervals.count = times > 0 ? times - 1 : 0;
    for (unsigned i = 0; i < intervals.count; i++)
        for (unsigned j = 0; j < jobs->count; j++)
            if (jobs->release[j] <= intervals.bound[i] && intervals.bound[i + 1] <= jobs->deadline[j])
                intervals.open[i] |= (uint64_t)1 << j;
    return intervals;
}

/* False for intervals and jobs that the site does not have. */
bool paper_open(const struct paper_intervals *intervals, unsigned interval, unsigned job)
{
    return interval < intervals->count && job < PAPER_JOBS && (intervals->open[interval] >> job & 1);
}

uint64_t paper_length(const struct paper_intervals *intervals, unsigned interval)
{
    return intervals->bound[interval + 1] - intervals->bound[interval];
}

struct paper_refusal paper_read_site(struct paper_tables tables, struct paper_site *site)
{
    site->given.parameters = tables.parameters;
    struct paper_refusal refusal = paper_read_levels(tables.levels, &site->given.levels);
    if (!refusal.number)
        refusal = paper_read_jobs(tables.jobs, &site->given.jobs);
    if (!refusal.number)
        refusal = paper_read_marks(tables.marks, &site->marks);
    if (!refusal.number)
        refusal = paper_alter(site);
    if (!refusal.number) {
        site->points = paper_points(&site->levels);
        site->intervals = paper_intervals(&site->jobs, &site->marks);
    }
    return refusal;
}
