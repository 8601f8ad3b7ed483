/* What touches a span of ticks: refusal 33, those of the job table, 34 to 36 and 15 to 18, then 14 for the first list that is too short. */
#include "paper.h"

/* The ticks from the first up to, not including, the end. */
struct ticks {
    uint32_t first, end;
};

static bool has_tick(struct ticks ticks, uint32_t tick)
{
    return ticks.first <= tick && tick < ticks.end;
}

/* Two stretches have a tick in common exactly when one of them has the first tick of the other. Neither is empty. */
static bool share_tick(struct ticks one, struct ticks other)
{
    return has_tick(one, other.first) || has_tick(other, one.first);
}

static struct ticks window(const struct paper_jobs *jobs, unsigned job)
{
    return (struct ticks) { jobs->release[job], jobs->deadline[job] };
}

/* The jobs open somewhere in the span. */
static unsigned open_jobs(const struct paper_jobs *jobs, struct ticks span, uint32_t *open)
{
    unsigned count = 0;
    for (unsigned j = 0; j < jobs->count; j++)
        if (share_tick(window(jobs, j), span))
            open[count++] = j;
    return count;
}

/* The jobs wholly inside it: it has their first tick and their last. */
static unsigned inside_jobs(const struct paper_jobs *jobs, struct ticks span, uint32_t *inside)
{
    unsigned count = 0;
    for (unsigned j = 0; j < jobs->count; j++)
        if (has_tick(span, jobs->release[j]) && has_tick(span, jobs->deadline[j] - 1))
            inside[count++] = j;
    return count;
}

/* The cells of the steps whose interval shares a tick with it, in the order of the plan, then sorted. */
static unsigned steps_touched(const struct paper_intervals *intervals, struct paper_bytes plan, struct ticks span, uint32_t *steps)
{
    unsigned count = 0;
    for (unsigned s = 0; s < paper_number(plan, 2, 2); s++) {
        uint32_t cell = paper_number(plan, 4 + 2 * s, 2);
        struct ticks interval = { intervals->bound[cell / 64], intervals->bound[cell / 64 + 1] };
        if (share_tick(interval, span))
            steps[count++] = cell;
    }
    paper_sort(steps, count);
    return count;
}

/* The first of the sorted deadlines that is not before the start; 0 where all are. */
static uint32_t nearest_deadline(const struct paper_jobs *jobs, uint32_t start)
{
    uint32_t deadlines[PAPER_JOBS];
    unsigned at = 0;
    for (unsigned j = 0; j < jobs->count; j++)
        deadlines[j] = jobs->deadline[j];
    paper_sort(deadlines, jobs->count);
    while (at < jobs->count && deadlines[at] < start)
        at++;
    return at < jobs->count ? deadlines[at] : 0;
}

static struct ramyearly_touching_answer refuse(uint32_t number, uint32_t place)
{
    return (struct ramyearly_touching_answer) { .number = number, .place = place };
}

static struct ramyearly_touching_answer list_too_short(enum paper_list list, uint32_t wanted, struct paper_touched *touched)
{
    touched->too_short = list;
    return refuse(14, wanted);
}

/* Number 0: the numbers that must be written are put there, as many as the answer says. No levels are read, and the highest one is not
 * looked at. */
struct ramyearly_touching_answer paper_touching(struct paper_tables tables, struct paper_bytes plan, uint32_t start, uint32_t end,
    size_t open_length, size_t inside_length, size_t steps_length, struct paper_touched *touched)
{
    struct paper_jobs jobs;
    struct paper_marks marks;
    struct ticks span = { start, end };
    if (start >= end || end > PAPER_TIME)
        return refuse(33, 0);
    struct paper_refusal refusal = paper_read_jobs(tables.jobs, &jobs);
    if (!refusal.number)
        refusal = paper_read_marks(tables.marks, &marks);
    if (!refusal.number)
        refusal = paper_alter_jobs(tables.parameters.free_ticks, tables.parameters.margin, &jobs);
    if (refusal.number)
        return refuse(refusal.number, refusal.place);
    struct paper_intervals intervals = paper_intervals(&jobs, &marks);
    refusal = paper_steps_refusal(&jobs, &intervals, plan);
    if (refusal.number)
        return refuse(refusal.number, refusal.place);
    unsigned open = open_jobs(&jobs, span, touched->open), inside = inside_jobs(&jobs, span, touched->inside);
    unsigned steps = steps_touched(&intervals, plan, span, touched->steps);
    if (open_length < open)
        return list_too_short(PAPER_OPEN, open, touched);
    if (inside_length < inside)
        return list_too_short(PAPER_INSIDE, inside, touched);
    if (steps_length < steps)
        return list_too_short(PAPER_STEPS, steps, touched);
    return (struct ramyearly_touching_answer) { .open = open, .inside = inside, .steps = steps, .deadline = nearest_deadline(&jobs, start) };
}
