/* The least energy of a tiny site, by trying every way to give each job its cycles and carrying it out. Whole cycles are
 * enough: the prices rise, so a least placement in whole cycles exists. */
#include "paper.h"

struct search {
    const struct paper_site *site;
    struct paper_loads loads;
    bool found;
    uint64_t least;
};

static void keep_least(struct search *search)
{
    uint64_t energy = paper_carried_out(search->site, &search->loads);
    if (!search->found || energy < search->least)
        search->least = energy;
    search->found = true;
}

/* Tries all placements of the cycles left of this job from this interval on, and then of the later jobs. */
static void place_from(struct search *search, unsigned job, unsigned interval, uint64_t left)
{
    const struct paper_site *site = search->site;
    if (left == 0) {
        if (job + 1 < site->jobs.count)
            place_from(search, job + 1, 0, site->jobs.cycles[job + 1]);
        else
            keep_least(search);
        return;
    }
    if (interval == site->intervals.count)
        return;
    uint64_t before = search->loads.at[interval], full = paper_length(&site->intervals, interval) * paper_top(&site->levels);
    uint64_t most = paper_open(&site->intervals, interval, job) ? full - before : 0;
    for (uint64_t cycles = 0; cycles <= most && cycles <= left; cycles++) {
        search->loads.at[interval] = before + cycles;
        place_from(search, job, interval + 1, left - cycles);
    }
    search->loads.at[interval] = before;
}

/* False when no placement meets all deadlines. */
bool paper_search(const struct paper_site *site, uint64_t *least)
{
    struct search search = { .site = site };
    if (site->jobs.count > 0)
        place_from(&search, 0, 0, site->jobs.cycles[0]);
    else
        keep_least(&search);
    *least = search.least;
    return search.found;
}
