/* What planning must answer apart from the plan: refusals 11 to 14, and the smallest prices of a plan that came out. */
#include "paper.h"

/* K: the number of (job, interval) pairs where the job is open. */
unsigned paper_pairs(const struct paper_intervals *intervals)
{
    unsigned pairs = 0;
    for (unsigned i = 0; i < intervals->count; i++)
        for (unsigned j = 0; j < PAPER_JOBS; j++)
            pairs += paper_open(intervals, i, j);
    return pairs;
}

/* The most steps that a plan may have: the smaller of jobs + intervals - 1 and K, and none without jobs. */
unsigned paper_step_limit(const struct paper_site *site)
{
    unsigned pairs = paper_pairs(&site->intervals);
    if (site->jobs.count == 0)
        return 0;
    unsigned limit = site->jobs.count + site->intervals.count - 1;
    return limit < pairs ? limit : pairs;
}

/* 12 to 14, with the length wanted as the place. */
static struct paper_refusal buffers_refusal(const struct paper_site *site, size_t plan, size_t prices, size_t shares)
{
    uint32_t n = site->intervals.count, plan_wanted = 4 + 6 * paper_step_limit(site);
    if (plan < plan_wanted)
        return paper_refuse(12, plan_wanted);
    if (prices < 2 + 5 * n)
        return paper_refuse(13, 2 + 5 * n);
    if (shares < site->jobs.count * n)
        return paper_refuse(14, site->jobs.count * n);
    return paper_refuse(0, 0);
}

/* Number 0: a plan must come out. Its steps and energy hang on the plan and are left 0 here. */
struct ramyearly_plan_answer paper_planning(struct paper_tables tables, size_t plan, size_t prices, size_t shares)
{
    struct paper_site site;
    struct paper_refusal refusal = paper_read_site(tables, &site);
    uint32_t start, end;
    if (!refusal.number && paper_overfull(&site, &start, &end))
        return (struct ramyearly_plan_answer) { .number = 11, .start = start, .end = end, .spare = paper_spare_of(&site, start, end) };
    if (!refusal.number)
        refusal = buffers_refusal(&site, plan, prices, shares);
    if (refusal.number)
        return (struct ramyearly_plan_answer) { .number = refusal.number, .place = refusal.place };
    return (struct ramyearly_plan_answer) { .intervals = site.intervals.count };
}

/* Raises the prices that rule 24 finds smaller than that of a step. Answers whether one was raised. */
static bool raise_prices(const struct paper_site *site, struct paper_bytes plan, uint8_t price[PAPER_INTERVALS])
{
    bool raised = false;
    unsigned steps = paper_number(plan, 2, 2);
    for (unsigned s = 0; s < steps; s++) {
        unsigned cell = paper_number(plan, 4 + 2 * s, 2);
        for (unsigned i = 0; i < site->intervals.count; i++)
            if (paper_open(&site->intervals, i, cell % 64) && price[i] < price[cell / 64]) {
                price[i] = price[cell / 64];
                raised = true;
            }
    }
    return raised;
}

/* From the smallest price that fits each load upward until no step's job is open in an interval of smaller price. Every
 * accepted list has at least these. */
void paper_smallest_prices(const struct paper_site *site, struct paper_bytes plan, uint8_t price[PAPER_INTERVALS])
{
    struct paper_loads loads = paper_loads(plan);
    for (unsigned i = 0; i < site->intervals.count; i++)
        price[i] = loads.at[i] == 0 ? 1 : (uint8_t)paper_band(&site->points, paper_length(&site->intervals, i), loads.at[i]);
    while (raise_prices(site, plan, price))
        ;
}
