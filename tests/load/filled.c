#include "filled.h"

/* The bounds of each job's window by number, the cycles that it has left, and for each bound the cycles that must still be run before it
 * by jobs with a later deadline. */
struct filling {
    unsigned first[PAPER_JOBS], last[PAPER_JOBS];
    uint64_t left[PAPER_JOBS], across[PAPER_BOUNDS];
};

static unsigned bound_at(const struct paper_intervals *intervals, uint32_t tick)
{
    unsigned b = 0;
    while (intervals->bound[b] != tick)
        b++;
    return b;
}

/* What is run before a bound, less the cycles of the jobs that are due by then. */
static uint64_t across_bound(const struct paper_site *site, const struct paper_loads *loads, unsigned bound)
{
    uint64_t run = 0, due = 0;
    for (unsigned i = 0; i < bound; i++)
        run += loads->at[i];
    for (unsigned j = 0; j < site->jobs.count; j++)
        if (site->jobs.deadline[j] <= site->intervals.bound[bound])
            due += site->jobs.cycles[j];
    return run - due;
}

static struct filling start(const struct paper_site *site, const struct paper_loads *loads)
{
    struct filling f;
    for (unsigned j = 0; j < site->jobs.count; j++) {
        f.first[j] = bound_at(&site->intervals, site->jobs.release[j]);
        f.last[j] = bound_at(&site->intervals, site->jobs.deadline[j]);
        f.left[j] = site->jobs.cycles[j];
    }
    for (unsigned b = 0; b <= site->intervals.count; b++)
        f.across[b] = across_bound(site, loads, b);
    return f;
}

static uint32_t take(struct filling *f, unsigned interval, unsigned job)
{
    uint64_t amount = f->left[job];
    for (unsigned b = interval + 1; b < f->last[job]; b++)
        if (f->across[b] < amount)
            amount = f->across[b];
    for (unsigned b = interval + 1; b < f->last[job]; b++)
        f->across[b] -= amount;
    f->left[job] -= amount;
    return (uint32_t)amount;
}

void filled_shares(const struct paper_site *site, const struct paper_loads *loads, uint32_t shares[PAPER_INTERVALS * PAPER_JOBS])
{
    unsigned n = site->jobs.count;
    struct filling f = start(site, loads);
    for (unsigned i = 0; i < site->intervals.count; i++)
        for (unsigned j = 0; j < n; j++)
            shares[i * n + j] = f.first[j] <= i && i < f.last[j] ? take(&f, i, j) : 0;
}
