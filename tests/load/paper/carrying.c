/* A plan of a tiny site carried out slot by slot, to see whether it meets all deadlines with the energy that it is said to have. */
#include "paper.h"

/* The plan as a schedule has q slots a tick: what is left of the jobs' cycles x q in the interval that runs, what all its slots
 * served of each job, and the sum of the slots' powers. */
struct carrying {
    const struct paper_site *site;
    uint64_t q, left[PAPER_JOBS], served[PAPER_JOBS], powers;
};

/* The product of the frequencies of levels 1 to m and all gaps. */
static uint64_t slots_of_tick(const struct paper_points *points)
{
    uint64_t q = paper_gaps(points);
    for (unsigned k = 1; k <= points->m; k++)
        q *= (uint64_t)points->frequency[k];
    return q;
}

/* The jobs of an interval by their numbers. Answers its load. */
static uint64_t begin_interval(struct carrying *carrying, struct paper_bytes plan, unsigned interval)
{
    uint64_t load = 0;
    for (unsigned j = 0; j < PAPER_JOBS; j++)
        carrying->left[j] = 0;
    for (unsigned s = 0; s < paper_step_count(plan); s++)
        if (paper_step(plan, s).interval == interval) {
            carrying->left[paper_step(plan, s).job] += carrying->q * paper_step(plan, s).cycles;
            load += paper_step(plan, s).cycles;
        }
    return load;
}

/* The band's level first, for extra / gap ticks, then the one below, which may be idling. */
static unsigned level_of_slot(const struct carrying *carrying, uint64_t length, uint64_t load, uint64_t slot)
{
    const struct paper_points *points = &carrying->site->points;
    if (load == 0)
        return 0;
    unsigned k = paper_band(points, length, load);
    uint64_t below = (uint64_t)points->frequency[k - 1], extra = load - length * below, gap = (uint64_t)points->frequency[k] - below;
    return slot * gap < extra * carrying->q ? k : k - 1;
}

/* The first job that has cycles left runs. False where none has so many, or where it is not open at that tick. */
static bool run_slot(struct carrying *carrying, uint64_t tick, unsigned level)
{
    const struct paper_jobs *jobs = &carrying->site->jobs;
    uint64_t frequency = (uint64_t)carrying->site->points.frequency[level];
    unsigned j = 0;
    carrying->powers += (uint64_t)carrying->site->points.power[level];
    if (level == 0)
        return true;
    while (j < jobs->count && carrying->left[j] == 0)
        j++;
    if (j == jobs->count || carrying->left[j] < frequency || tick < jobs->release[j] || tick >= jobs->deadline[j])
        return false;
    carrying->left[j] -= frequency;
    carrying->served[j] += frequency;
    return true;
}

static bool run_interval(struct carrying *carrying, struct paper_bytes plan, unsigned interval)
{
    const struct paper_intervals *intervals = &carrying->site->intervals;
    uint64_t load = begin_interval(carrying, plan, interval), length = paper_length(intervals, interval);
    for (uint64_t slot = 0; slot < carrying->q * length; slot++) {
        uint64_t tick = intervals->bound[interval] + slot / carrying->q;
        if (!run_slot(carrying, tick, level_of_slot(carrying, length, load, slot)))
            return false;
    }
    return true;
}

/* Of a plan without a fault up to 18: whether every job is served between its release and its deadline, and the energy is the exact one. */
bool paper_carries_out(const struct paper_site *site, struct paper_bytes plan)
{
    struct carrying carrying = { .site = site, .q = slots_of_tick(&site->points) };
    struct paper_loads loads = paper_loads(plan);
    for (unsigned i = 0; i < site->intervals.count; i++)
        if (!run_interval(&carrying, plan, i))
            return false;
    for (unsigned j = 0; j < site->jobs.count; j++)
        if (carrying.served[j] != carrying.q * site->jobs.cycles[j])
            return false;
    return carrying.powers * paper_gaps(&site->points) == paper_exact(site, &loads) * carrying.q;
}
