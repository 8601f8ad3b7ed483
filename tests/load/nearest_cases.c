#include "nearest_cases.h"

#include "buffers.h"
#include "call.h"
#include "damage.h"
#include "marks.h"
#include "parameters.h"
#include "sites.h"

static struct table levels, jobs, marks, plan, prices;
static struct site_tables tables = { .levels = &levels, .jobs = &jobs, .marks = &marks };
static uint32_t list[2 * PAPER_JOBS];

static void make_tables(const struct paper_site *site)
{
    tables_of_site(site, &levels, &jobs, &marks);
    tables.parameters = site->given.parameters;
}

void list_any(struct numbers *numbers, const struct site_tables *given, unsigned count)
{
    compare_nearest(numbers, given, any_buffer(numbers, 2 * (size_t)count), list);
}

/* Windows of one length, a few jobs in each, so that many jobs can have as many cycles more as others. The jobs of a window are not
 * neighbours by number. Each has an equal part of what its window has, all of it in some sites, or a cycle or two less. */
static struct paper_jobs jobs_with_equal_room(struct numbers *numbers, const struct paper_levels *of)
{
    unsigned in_window = (unsigned)between(numbers, 1, 3), windows = (unsigned)between(numbers, 1, is_large(numbers) ? 21 : 4);
    uint32_t length = (uint32_t)between(numbers, 1, 10), apart = length + (uint32_t)below(numbers, 3);
    uint32_t part = length * paper_top(of) / in_window, less = (uint32_t)below(numbers, 3);
    struct paper_jobs made = { .count = in_window * windows };
    bool backwards = one_in(numbers, 2);
    for (unsigned j = 0; j < made.count; j++) {
        unsigned window = backwards ? windows - 1 - j % windows : j % windows;
        made.release[j] = window * apart;
        made.deadline[j] = window * apart + length;
        made.cycles[j] = part > less + 1 ? part - less : 1;
    }
    return made;
}

static struct paper_site site_with_equal_room(struct numbers *numbers)
{
    struct paper_levels any = any_levels(numbers);
    struct paper_jobs equal = jobs_with_equal_room(numbers, &any);
    return site_given(any_given(numbers, any, equal), any_marks(numbers, &equal));
}

/* A quarter have many jobs with equal room. */
static struct paper_site any_kind(struct numbers *numbers)
{
    if (one_in(numbers, 4))
        return site_with_equal_room(numbers);
    if (one_in(numbers, 8))
        return any_site(numbers, (struct shape) { (unsigned)between(numbers, 7, 20), (uint32_t)between(numbers, 5, 200) });
    return small_or_large_site(numbers);
}

/* The site as it is altered, with cycles added to one of its jobs: the added ones come on top of the margin. */
static struct paper_site lengthened(const struct paper_site *site, unsigned job, uint32_t added)
{
    struct paper_jobs longer = site->jobs;
    longer.cycles[job] += added;
    return site_of(site->levels, longer, site->marks);
}

/* Whether the site has a list, and whether it has a plan. It has both or neither. */
static void is_served(struct numbers *numbers, const struct paper_site *site, bool served)
{
    make_tables(site);
    bool listed = compare_nearest(numbers, &tables, 2 * (size_t)site->jobs.count, list);
    bool planned = compare_plan(numbers, &tables, enough(site), &plan, &prices);
    same("a lengthened job has a list", listed, served);
    same("a lengthened job has a plan", planned, served);
    call_report("a lengthened job");
}

/* One of the jobs that were listed is given the most cycles that it can have: there is a plan, and the job can have no more. With one more
 * the set is overfull. */
static void lengthen(struct numbers *numbers, const struct paper_site *site)
{
    unsigned at = (unsigned)below(numbers, site->jobs.count), job = list[2 * at];
    uint32_t most = list[2 * at + 1];
    struct paper_site longer = lengthened(site, job, most);
    is_served(numbers, &longer, true);
    same("the first of the list has none", list[1], 0);
    call_report("a lengthened job");
    if (longer.jobs.cycles[job] == PAPER_CYCLES)
        return;
    longer = lengthened(site, job, most + 1);
    is_served(numbers, &longer, false);
}

static void damage_some(struct numbers *numbers, const struct paper_site *site)
{
    if (one_in(numbers, 24))
        damage_levels(numbers, &levels);
    if (one_in(numbers, 24))
        damage_jobs(numbers, &jobs);
    if (one_in(numbers, 12))
        tables.parameters = near_limits(numbers, &site->given);
}

void nearest_jobs(struct numbers *numbers)
{
    struct paper_site site = any_kind(numbers);
    make_tables(&site);
    bool came_out = compare_nearest(numbers, &tables, 2 * (size_t)site.jobs.count, list);
    if (came_out && site.jobs.count > 0 && below(numbers, 4) == 3)
        lengthen(numbers, &site);
    for (unsigned times = site.jobs.count > 8 ? 1 : 4; times > 0; times--) {
        make_tables(&site);
        damage_some(numbers, &site);
        list_any(numbers, &tables, site.jobs.count);
    }
}
