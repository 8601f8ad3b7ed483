#include "groups.h"

#include "boards_cases.h"
#include "buffers.h"
#include "call.h"
#include "change.h"
#include "damage.h"
#include "exact.h"
#include "fits_cases.h"
#include "loads.h"
#include "marks.h"
#include "marks_cases.h"
#include "nearest_cases.h"
#include "order_cases.h"
#include "other.h"
#include "parameters.h"
#include "parameters_cases.h"
#include "rounds_cases.h"
#include "sites.h"
#include "spans.h"
#include "touching_cases.h"

/* The tables of the case, and a plan and price list in the making. */
static struct table levels, idle_levels, jobs, marks, changed_marks, plan, prices, changed_plan, changed_prices, ordered;
static struct site_tables tables = { .levels = &levels, .jobs = &jobs, .marks = &marks };
static struct plan steps, changed_steps;
static struct prices list, changed_list;

static void make_tables(const struct paper_site *site)
{
    tables_of_site(site, &levels, &jobs, &marks);
    tables.parameters = site->given.parameters;
}

/* Mostly all levels, or any of them; sometimes none, or one more than there are. */
static uint32_t any_highest(struct numbers *numbers, const struct paper_levels *given)
{
    uint64_t count = given->count, any = between(numbers, 1, count);
    return (uint32_t)ONE_OF(numbers, count, count, count, any, any, any, any, one_in(numbers, 2) ? 0 : count + 1);
}

static void settings(struct numbers *numbers)
{
    struct paper_levels given = any_levels(numbers);
    levels_table(&levels, &given);
    for (unsigned i = 0; i < 4; i++) {
        uint32_t length = any_length(numbers), highest = any_highest(numbers, &given);
        compare_setting(numbers, &levels, highest, length, any_load(numbers, &given, length));
    }
}

static void ask_spares(struct numbers *numbers, const struct paper_site *site, unsigned times)
{
    while (times-- > 0) {
        struct window window = any_window(numbers, one_in(numbers, 4) ? &site->given.jobs : &site->jobs);
        compare_spare(numbers, &tables, window.start, window.end);
    }
}

static void spares(struct numbers *numbers)
{
    struct paper_site site = any_site(numbers, small_shape(numbers));
    make_tables(&site);
    ask_spares(numbers, &site, 4);
}

/* One of the eight functions that take levels or jobs, with tables as they stand. The jobs were made for this site. */
static void call_any(struct numbers *numbers, const struct paper_site *site)
{
    uint64_t load = below(numbers, 100);
    switch (below(numbers, 8)) {
    case 0:
        compare_setting(numbers, &levels, tables.parameters.highest, 10, load);
        break;
    case 1:
        compare_spare(numbers, &tables, 0, (uint32_t)load);
        break;
    case 2:
        compare_check(numbers, &tables, &plan, &prices);
        break;
    case 3:
        compare_fits(numbers, &tables, &plan);
        break;
    case 4:
        compare_order(numbers, &tables, &plan, &prices, any_buffer(numbers, plan.length), &ordered);
        break;
    case 5:
        touch_any(numbers, site, &tables, &plan);
        break;
    case 6:
        list_any(numbers, &tables, site->jobs.count);
        break;
    default:
        compare_plan(numbers, &tables, (struct buffer_lengths) { 1000, 300, 500 }, &changed_plan, &changed_prices);
    }
}

static void damage_any(struct numbers *numbers, const struct paper_site *site)
{
    switch (below(numbers, 6)) {
    case 0:
        damage_marks(numbers, &marks);
        break;
    case 1:
        tables.parameters = near_limits(numbers, &site->given);
        break;
    case 2:
    case 3:
        damage_jobs(numbers, &jobs);
        break;
    default:
        damage_levels(numbers, &levels);
    }
}

/* Most have one fault, some two or three, to try which one is named. */
static void damaged(struct numbers *numbers)
{
    struct paper_site site = any_site(numbers, small_shape(numbers));
    make_tables(&site);
    any_plan(numbers, &site, &steps);
    band_prices(&site, &steps, &list);
    plan_table(&plan, &steps);
    prices_table(&prices, &list);
    for (unsigned faults = (unsigned)ONE_OF(numbers, 1, 1, 1, 2, 3); faults > 0; faults--)
        damage_any(numbers, &site);
    call_any(numbers, &site);
}

static void random_bytes(struct numbers *numbers)
{
    struct paper_site site = any_site(numbers, small_shape(numbers));
    make_tables(&site);
    if (one_in(numbers, 2))
        any_bytes(numbers, &levels, 34, PAPER_LEVELS);
    if (one_in(numbers, 2))
        any_bytes(numbers, &jobs, 40, 3);
    if (one_in(numbers, 4))
        any_bytes(numbers, &marks, 40, 2);
    if (one_in(numbers, 4))
        tables.parameters = near_limits(numbers, &site.given);
    any_bytes(numbers, &plan, 40, site.intervals.count);
    any_bytes(numbers, &prices, 40, site.intervals.count);
    call_any(numbers, &site);
}

static void plan_into_any_buffers(struct numbers *numbers, const struct paper_site *site)
{
    struct buffer_lengths lengths = any_buffers(numbers, site);
    make_tables(site);
    compare_plan(numbers, &tables, lengths, &plan, &prices);
}

static void planning(struct numbers *numbers)
{
    struct paper_site site = any_site(numbers, small_shape(numbers));
    plan_into_any_buffers(numbers, &site);
    plan_into_any_buffers(numbers, &site);
}

/* Mostly the site's marks and parameters, sometimes others than the plan was made for. */
static struct site_tables with_others(struct numbers *numbers, const struct paper_site *site)
{
    struct paper_marks other = one_in(numbers, 8) ? other_marks(numbers, &site->jobs, site->marks) : site->marks;
    bool same_parameters = !one_in(numbers, 8);
    marks_table(&changed_marks, &other);
    return (struct site_tables) { &levels, &jobs, &changed_marks,
        same_parameters ? site->given.parameters : other_parameters(numbers, &site->given) };
}

/* Checks the plan in steps and list with one change, or two. Some are put in order too, and of some it is asked what touches a span. */
static void check_changed(struct numbers *numbers, const struct paper_site *site)
{
    struct site_tables given = with_others(numbers, site);
    plan_copy(&changed_steps, &steps);
    changed_list = list;
    change_either(numbers, site, &changed_steps, &changed_list);
    plan_table(&changed_plan, &changed_steps);
    prices_table(&changed_prices, &changed_list);
    if (one_in(numbers, 8))
        damage_bytes(numbers, &changed_plan);
    if (one_in(numbers, 8))
        damage_bytes(numbers, &changed_prices);
    compare_check(numbers, &given, &changed_plan, &changed_prices);
    if (one_in(numbers, 4))
        compare_order(numbers, &given, &changed_plan, &changed_prices, any_buffer(numbers, changed_plan.length), &ordered);
    if (one_in(numbers, 4))
        touch_any(numbers, site, &given, &changed_plan);
}

static void changed_from_planned(struct numbers *numbers, const struct paper_site *site, unsigned times)
{
    make_tables(site);
    if (!compare_plan(numbers, &tables, enough(site), &plan, &prices))
        return;
    plan_of_table(&steps, &plan);
    prices_of_table(&list, &prices);
    while (times-- > 0)
        check_changed(numbers, site);
}

static void changed_plans(struct numbers *numbers)
{
    struct paper_site site = any_site(numbers, small_shape(numbers));
    changed_from_planned(numbers, &site, 6);
}

static void other_plans(struct numbers *numbers)
{
    struct paper_site site = any_site(numbers, small_shape(numbers));
    make_tables(&site);
    for (unsigned i = 0; i < 4; i++) {
        if (one_in(numbers, 4))
            first_plan(&site, &steps);
        else
            any_plan(numbers, &site, &steps);
        band_prices(&site, &steps, &list);
        check_changed(numbers, &site);
    }
}

/* A plan comes out exactly when the search finds a placement, and none has less energy; nor has any schedule. */
static void tiny_sites(struct numbers *numbers)
{
    struct paper_site site = tiny_site(numbers);
    unsigned q = (unsigned)between(numbers, 1, PAPER_TINY_SLOTS);
    uint64_t least, slots;
    bool found = paper_search(&site, &least), serves = paper_schedules(&site, q, &slots);
    struct planned planned = plan_exactly(numbers, &site);
    same("a plan came out", planned.came_out, found);
    if (planned.came_out && found)
        same("exact energy times all gaps", (int64_t)planned.exact, (int64_t)least);
    if (serves)
        same("a plan came out and no schedule has less", planned.came_out && planned.exact * q <= slots * paper_gaps(&site.points), 1);
    call_report("the search");
    fit_tiny_site(numbers, &site, found, least);
}

/* The same site with room for such an entry: where there are as many levels as there may be, without the last. */
static struct paper_site without_idle_entry(const struct paper_site *site)
{
    struct paper_given given = site->given;
    given.levels.count -= given.levels.count == PAPER_LEVELS;
    given.levels.idle_entry = false;
    given.levels.draw = 0;
    if (given.parameters.highest > given.levels.count)
        given.parameters.highest = given.levels.count;
    return site_given(given, site->marks);
}

/* An idle entry of draw 0 changes no answer and no byte. */
static void free_idling(struct numbers *numbers)
{
    struct paper_site any = any_site(numbers, small_shape(numbers)), site = without_idle_entry(&any);
    make_tables(&site);
    site.given.levels.idle_entry = true;
    levels_table(&idle_levels, &site.given.levels);
    const struct site_tables idle_tables = { &idle_levels, &jobs, &marks, site.given.parameters };
    uint32_t length = any_length(numbers);
    uint64_t load = any_load(numbers, &site.given.levels, length);
    struct window window = any_window(numbers, &site.jobs);
    compare_alike(numbers, &tables, &idle_tables, (struct questions) { length, load, window, enough(&site) });
}

static void large_sites(struct numbers *numbers)
{
    struct paper_site site = large_site(numbers);
    plan_into_any_buffers(numbers, &site);
    changed_from_planned(numbers, &site, 8);
    ask_spares(numbers, &site, 4);
    if (one_in(numbers, 8))
        list_any(numbers, &tables, site.jobs.count);
}

struct group groups[GROUPS] = {
    { .name = "settings", .run = settings, .weight = 16 },
    { .name = "spares", .run = spares, .weight = 16 },
    { .name = "damaged tables", .run = damaged, .weight = 36 },
    { .name = "random bytes", .run = random_bytes, .weight = 18 },
    { .name = "planning", .run = planning, .weight = 22 },
    { .name = "changed plans", .run = changed_plans, .weight = 20 },
    { .name = "other plans", .run = other_plans, .weight = 14 },
    { .name = "tiny sites", .run = tiny_sites, .weight = 12 },
    { .name = "free idling", .run = free_idling, .weight = 8 },
    { .name = "fitting plans", .run = fitting_plans, .weight = 12 },
    { .name = "ordered plans", .run = ordered_plans, .weight = 12 },
    { .name = "touched spans", .run = touched_spans, .weight = 12 },
    { .name = "nearest jobs", .run = nearest_jobs, .weight = 8 },
    { .name = "marked sites", .run = marked_sites, .weight = 12 },
    { .name = "alike boards", .run = alike_boards, .weight = 8 },
    { .name = "altered sites", .run = altered_sites, .weight = 8 },
    { .name = "large sites", .run = large_sites, .weight = 6 },
    { .name = "rounds", .run = laid_out_rounds, .weight = 12 },
    { .name = "damaged tasks", .run = damaged_tasks, .weight = 12 },
};

void run_case(struct numbers *numbers)
{
    unsigned choice = (unsigned)below(numbers, WEIGHTS), g = 0;
    while (choice >= groups[g].weight) {
        choice -= groups[g].weight;
        g++;
    }
    tally = &groups[g].tally;
    groups[g].run(numbers);
}
