/* The steps of a plan, and what is refused of them without levels: 15 to 18. */
#include <string.h>

#include "paper.h"

unsigned paper_step_count(struct paper_bytes plan)
{
    return paper_number(plan, 2, 2);
}

struct paper_step paper_step(struct paper_bytes plan, unsigned s)
{
    unsigned cell = paper_number(plan, 4 + 2 * s, 2);
    uint32_t cycles = paper_number(plan, 4 + 2 * paper_step_count(plan) + 4 * s, 4);
    return (struct paper_step) { cell, cell / 64, cell % 64, cycles };
}

/* 17 and 18, by step. */
static struct paper_refusal each_step_refusal(const struct paper_jobs *jobs, const struct paper_intervals *intervals, struct paper_bytes plan)
{
    bool seen[PAPER_INTERVALS][PAPER_JOBS];
    memset(seen, 0, sizeof seen);
    for (unsigned s = 0; s < paper_step_count(plan); s++) {
        struct paper_step step = paper_step(plan, s);
        if (!paper_open(intervals, step.interval, step.job) || seen[step.interval][step.job])
            return paper_refuse(17, s);
        if (step.cycles == 0 || step.cycles > jobs->cycles[step.job])
            return paper_refuse(18, s);
        seen[step.interval][step.job] = true;
    }
    return paper_refuse(0, 0);
}

struct paper_refusal paper_steps_refusal(const struct paper_jobs *jobs, const struct paper_intervals *intervals, struct paper_bytes plan)
{
    if (plan.length < 4 || plan.length != 4 + 6 * (size_t)paper_step_count(plan))
        return paper_refuse(15, 0);
    if (paper_number(plan, 0, 2) != intervals->count)
        return paper_refuse(16, 0);
    return each_step_refusal(jobs, intervals, plan);
}
