/* The least energy of all schedules of a tiny site, also on dropped levels. It goes from slot to slot, and for each state,
 * which is what is left of the jobs, keeps the least energy that leads there. */
#include "paper.h"

/* A state has a digit for each job: what is left of its cycles x q. State 0 has served all. */
enum { WIDTH = PAPER_TINY_CYCLES * PAPER_TINY_SLOTS + 1, STATES = WIDTH * WIDTH * WIDTH };

static const unsigned digit[PAPER_TINY_JOBS] = { 1, WIDTH, WIDTH * WIDTH };

/* A slot outside the job's window serves nothing. */
static unsigned served(const struct paper_jobs *jobs, unsigned state, unsigned job, uint32_t tick, unsigned frequency)
{
    unsigned left = state / digit[job] % WIDTH;
    if (tick < jobs->release[job] || tick >= jobs->deadline[job])
        return state;
    return state - (left < frequency ? left : frequency) * digit[job];
}

static void keep_least(uint64_t least[STATES], unsigned state, uint64_t energy)
{
    if (energy < least[state])
        least[state] = energy;
}

/* The next slot idles, or has one level and one job. */
static void slot_from(const struct paper_site *site, uint32_t tick, unsigned state, uint64_t before, uint64_t after[STATES])
{
    keep_least(after, state, before + (uint64_t)paper_idle_power(&site->levels));
    for (unsigned i = 0; i < site->levels.count; i++)
        for (unsigned j = 0; j < site->jobs.count; j++)
            keep_least(after, served(&site->jobs, state, j, tick, site->levels.frequency[i]), before + (uint64_t)paper_power(&site->levels, i));
}

static void none_reached(uint64_t least[STATES])
{
    for (unsigned state = 0; state < STATES; state++)
        least[state] = UINT64_MAX;
}

/* The schedules have q slots a tick, q at most 2. The least is that of the sums of the slots' powers, which are q times their
 * energies. False when no schedule serves. */
bool paper_schedules(const struct paper_site *site, unsigned q, uint64_t *least)
{
    static uint64_t reached[2][STATES];
    const struct paper_intervals *intervals = &site->intervals;
    unsigned start = 0, now = 0;
    none_reached(reached[now]);
    for (unsigned j = 0; j < site->jobs.count; j++)
        start += q * site->jobs.cycles[j] * digit[j];
    reached[now][start] = 0;
    for (uint32_t slot = q * intervals->bound[0]; slot < q * intervals->bound[intervals->count]; slot++) {
        none_reached(reached[1 - now]);
        for (unsigned state = 0; state < STATES; state++)
            if (reached[now][state] < UINT64_MAX)
                slot_from(site, slot / q, state, reached[now][state], reached[1 - now]);
        now = 1 - now;
    }
    *least = reached[now][0];
    return *least < UINT64_MAX;
}
