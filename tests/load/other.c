#include "other.h"

/* Gives the job parts of its cycles in its open intervals, and the last open one what is left. */
static void spread_job(struct numbers *numbers, const struct paper_site *site, struct plan *plan, unsigned job)
{
    uint64_t left = site->jobs.cycles[job];
    unsigned last = 0;
    for (unsigned i = 0; i < site->intervals.count; i++)
        if (paper_open(&site->intervals, i, job))
            last = i;
    for (unsigned i = 0; i < last; i++)
        if (paper_open(&site->intervals, i, job)) {
            uint64_t full = paper_length(&site->intervals, i) * (uint64_t)site->points.frequency[between(numbers, 0, site->points.m)];
            uint64_t part = one_in(numbers, 2) ? below(numbers, left + 1) : full < left ? full : left;
            plan_add_step(plan, i, job, part);
            left -= part;
        }
    plan_add_step(plan, last, job, left);
}

void any_plan(struct numbers *numbers, const struct paper_site *site, struct plan *plan)
{
    plan->intervals = site->intervals.count;
    plan->steps = 0;
    for (unsigned j = 0; j < site->jobs.count; j++)
        spread_job(numbers, site, plan, j);
}

void first_plan(const struct paper_site *site, struct plan *plan)
{
    plan->intervals = site->intervals.count;
    plan->steps = 0;
    for (unsigned j = 0; j < site->jobs.count; j++) {
        unsigned i = 0;
        while (!paper_open(&site->intervals, i, j))
            i++;
        plan_add_step(plan, i, j, site->jobs.cycles[j]);
    }
}

static uint64_t open_intervals(const struct paper_site *site, unsigned job)
{
    uint64_t open = 0;
    for (unsigned i = 0; i < site->intervals.count; i++)
        open += paper_open(&site->intervals, i, job);
    return open;
}

/* Gives the job at least one of its cycles in each of its open intervals, as far as they go. */
static void spread_thin(struct numbers *numbers, const struct paper_site *site, struct plan *plan, unsigned job)
{
    uint64_t left = site->jobs.cycles[job], open = open_intervals(site, job);
    for (unsigned i = 0; i < site->intervals.count; i++)
        if (paper_open(&site->intervals, i, job)) {
            uint64_t more = left > open ? 2 * (left - open) / open : 0;
            uint64_t part = open == 1 || left == 0 ? left : 1 + below(numbers, more + 1);
            plan_add_step(plan, i, job, part);
            left -= part;
            open--;
        }
}

void full_plan(struct numbers *numbers, const struct paper_site *site, struct plan *plan)
{
    plan->intervals = site->intervals.count;
    plan->steps = 0;
    for (unsigned j = 0; j < site->jobs.count; j++)
        spread_thin(numbers, site, plan, j);
}

void hand_made_plan(struct numbers *numbers, const struct paper_site *site, struct plan *plan)
{
    switch (below(numbers, 4)) {
    case 0:
        first_plan(site, plan);
        break;
    case 1:
        full_plan(numbers, site, plan);
        break;
    default:
        any_plan(numbers, site, plan);
    }
}

static uint8_t band_price(const struct paper_site *site, unsigned interval, uint64_t load)
{
    uint64_t length = paper_length(&site->intervals, interval);
    if (load == 0)
        return 1;
    if (load > length * paper_top(&site->levels))
        return (uint8_t)site->points.m;
    return (uint8_t)paper_band(&site->points, length, load);
}

void band_prices(const struct paper_site *site, const struct plan *plan, struct prices *prices)
{
    uint64_t load[PAPER_INTERVALS] = { 0 };
    for (unsigned s = 0; s < plan->steps; s++)
        if (plan->cell[s] / 64 < site->intervals.count)
            load[plan->cell[s] / 64] += plan->cycles[s];
    prices->intervals = site->intervals.count;
    for (unsigned i = 0; i < prices->intervals; i++) {
        prices->end[i] = site->intervals.bound[i + 1];
        prices->price[i] = band_price(site, i, load[i]);
    }
}
