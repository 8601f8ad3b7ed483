#include "parameters_cases.h"

#include "buffers.h"
#include "change.h"
#include "loads.h"
#include "nearest_cases.h"
#include "other.h"
#include "parameters.h"
#include "sites.h"
#include "spans.h"
#include "touching_cases.h"

/* The tables as they are given, those that were altered by hand, and a plan for either. */
static struct table levels, jobs, marks, altered_levels, altered_jobs, plan, prices, ordered;
static struct plan steps;
static struct prices list;

static struct site_tables tables_given(const struct paper_site *site)
{
    tables_of_site(site, &levels, &jobs, &marks);
    return (struct site_tables) { &levels, &jobs, &marks, site->given.parameters };
}

/* No answer and no byte differs. */
static void same_as_by_hand(struct numbers *numbers, const struct paper_site *site)
{
    struct site_tables given = tables_given(site), by_hand = { &altered_levels, &altered_jobs, &marks, unaltered(&site->levels) };
    levels_table(&altered_levels, &site->levels);
    jobs_table(&altered_jobs, &site->jobs);
    uint32_t length = any_length(numbers);
    uint64_t load = any_load(numbers, &site->given.levels, length);
    compare_alike(numbers, &given, &by_hand, (struct questions) { length, load, any_span(numbers, site), enough(site) });
}

/* One of the jobs has as many cycles as the margin allows, or one more. */
static void make_heavy(struct numbers *numbers, struct paper_given *given)
{
    if (given->jobs.count == 0 || given->parameters.margin > PAPER_MARGIN)
        return;
    uint32_t most = most_cycles(given->parameters.margin), more = most < PAPER_CYCLES && one_in(numbers, 2);
    given->jobs.cycles[below(numbers, given->jobs.count)] = most + more;
}

/* For the site as it is altered, or, where the parameters refuse that, for the one before. */
static void make_plan(struct numbers *numbers, const struct paper_site *site)
{
    hand_made_plan(numbers, site, &steps);
    band_prices(site, &steps, &list);
    if (one_in(numbers, 4))
        change_order(numbers, &steps);
    plan_table(&plan, &steps);
    prices_table(&prices, &list);
}

/* Every operation that takes parameters. */
static void ask_all(struct numbers *numbers, const struct paper_site *site, const struct site_tables *given)
{
    uint32_t length = any_length(numbers);
    struct window window = any_window(numbers, &site->jobs);
    compare_setting(numbers, given->levels, given->parameters.highest, length, any_load(numbers, &site->given.levels, length));
    compare_spare(numbers, given, window.start, window.end);
    list_any(numbers, given, site->jobs.count);
    compare_check(numbers, given, &plan, &prices);
    compare_order(numbers, given, &plan, &prices, any_buffer(numbers, plan.length), &ordered);
    touch_any(numbers, site, given, &plan);
    compare_plan(numbers, given, enough(site), &plan, &prices);
}

static void ask_near_limits(struct numbers *numbers, const struct paper_site *site)
{
    struct paper_site near = { .given = site->given, .marks = site->marks };
    near.given.parameters = near_limits(numbers, &site->given);
    if (one_in(numbers, 4))
        make_heavy(numbers, &near.given);
    struct site_tables given = tables_given(&near);
    bool refused = paper_alter(&near).number != 0;
    if (!refused)
        near = site_given(near.given, near.marks);
    make_plan(numbers, refused ? site : &near);
    ask_all(numbers, refused ? site : &near, &given);
}

void altered_sites(struct numbers *numbers)
{
    struct paper_site site = small_or_large_site(numbers);
    same_as_by_hand(numbers, &site);
    ask_near_limits(numbers, &site);
    ask_near_limits(numbers, &site);
}
