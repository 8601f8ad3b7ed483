/* The spare of a window (refusal 27) and the earliest overfull window (refusal 11). */
#include "paper.h"

/* Length x top frequency less the cycles of the jobs inside. */
int64_t paper_spare_of(const struct paper_site *site, uint32_t start, uint32_t end)
{
    int64_t spare = ((int64_t)end - start) * paper_top(&site->levels);
    for (unsigned j = 0; j < site->jobs.count; j++)
        if (site->jobs.release[j] >= start && site->jobs.deadline[j] <= end)
            spare -= site->jobs.cycles[j];
    return spare;
}

static bool is_one_of(const uint32_t *times, unsigned count, uint32_t time)
{
    for (unsigned i = 0; i < count; i++)
        if (times[i] == time)
            return true;
    return false;
}

/* The earliest deadline after the start whose window is overfull. */
static bool overfull_from(const struct paper_site *site, unsigned start, uint32_t *end)
{
    const uint32_t *bound = site->intervals.bound;
    for (unsigned b = start + 1; b <= site->intervals.count; b++)
        if (is_one_of(site->jobs.deadline, site->jobs.count, bound[b]) && paper_spare_of(site, bound[start], bound[b]) < 0) {
            *end = bound[b];
            return true;
        }
    return false;
}

/* Bounds rise, so the first start found is the earliest. */
bool paper_overfull(const struct paper_site *site, uint32_t *start, uint32_t *end)
{
    const uint32_t *bound = site->intervals.bound;
    for (unsigned a = 0; a < site->intervals.count; a++)
        if (is_one_of(site->jobs.release, site->jobs.count, bound[a]) && overfull_from(site, a, end)) {
            *start = bound[a];
            return true;
        }
    return false;
}

/* No marks are read, and no intervals are cut. */
struct ramyearly_spare_answer paper_spare(struct paper_tables tables, uint32_t start, uint32_t end)
{
    struct paper_site site = { .given = { .parameters = tables.parameters } };
    struct paper_refusal refusal = paper_read_levels(tables.levels, &site.given.levels);
    if (!refusal.number)
        refusal = paper_read_jobs(tables.jobs, &site.given.jobs);
    if (!refusal.number)
        refusal = paper_alter(&site);
    if (refusal.number)
        return (struct ramyearly_spare_answer) { .number = refusal.number, .place = refusal.place };
    if (start >= end || end > PAPER_TIME)
        return (struct ramyearly_spare_answer) { .number = 27 };
    return (struct ramyearly_spare_answer) { .spare = paper_spare_of(&site, start, end) };
}
