/* The first half of the check: whether a plan fits, refusals 15 to 20, and its energy figure. */
#include "paper.h"

/* 19: the first job whose steps don't add to its cycles. */
static struct paper_refusal sums_refusal(const struct paper_site *site, struct paper_bytes plan)
{
    uint64_t sum[PAPER_JOBS] = { 0 };
    for (unsigned s = 0; s < paper_step_count(plan); s++)
        sum[paper_step(plan, s).job] += paper_step(plan, s).cycles;
    for (unsigned j = 0; j < site->jobs.count; j++)
        if (sum[j] != site->jobs.cycles[j])
            return paper_refuse(19, j);
    return paper_refuse(0, 0);
}

/* The loads of a plan that has no fault up to 18. */
struct paper_loads paper_loads(struct paper_bytes plan)
{
    struct paper_loads loads = { { 0 } };
    for (unsigned s = 0; s < paper_step_count(plan); s++)
        loads.at[paper_step(plan, s).interval] += paper_step(plan, s).cycles;
    return loads;
}

/* 20: the first interval that is loaded past its length x top frequency. */
static struct paper_refusal loads_refusal(const struct paper_site *site, struct paper_bytes plan)
{
    struct paper_loads loads = paper_loads(plan);
    for (unsigned i = 0; i < site->intervals.count; i++)
        if (loads.at[i] > paper_length(&site->intervals, i) * paper_top(&site->levels))
            return paper_refuse(20, i);
    return paper_refuse(0, 0);
}

struct paper_refusal paper_fits_refusal(const struct paper_site *site, struct paper_bytes plan)
{
    struct paper_refusal refusal = paper_steps_refusal(&site->jobs, &site->intervals, plan);
    if (!refusal.number)
        refusal = sums_refusal(site, plan);
    if (!refusal.number)
        refusal = loads_refusal(site, plan);
    return refusal;
}

struct ramyearly_fits_answer paper_fits(struct paper_tables tables, struct paper_bytes plan)
{
    struct paper_site site;
    struct paper_refusal refusal = paper_read_site(tables, &site);
    if (!refusal.number)
        refusal = paper_fits_refusal(&site, plan);
    if (refusal.number)
        return (struct ramyearly_fits_answer) { .number = refusal.number, .place = refusal.place };
    struct paper_loads loads = paper_loads(plan);
    return (struct ramyearly_fits_answer) { .energy = paper_figure(&site, &loads) };
}
