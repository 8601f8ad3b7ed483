#include "order_cases.h"

#include "boards.h"
#include "buffers.h"
#include "call.h"
#include "change.h"
#include "other.h"
#include "parameters.h"
#include "sites.h"

/* The site's tables, a plan for it and what that comes out as; then another plan for the same jobs, marks, free ticks and
 * margin. */
static struct table levels, jobs, marks, plan, prices, ordered, other_levels, other_plan, other_prices, other_ordered;
static struct site_tables tables = { .levels = &levels, .jobs = &jobs, .marks = &marks };
static struct site_tables other_tables = { .levels = &other_levels, .jobs = &jobs, .marks = &marks };
static struct plan steps, other_steps;
static struct prices list, other_list;

/* The plan itself, the plan with some of its shares changed, or one with steps in all open pairs; the steps are in any order.
 * Sometimes it comes with another board of the same type, other levels above the highest one, or other prices. */
static void make_other(struct numbers *numbers, const struct paper_site *site)
{
    struct paper_levels board = one_in(numbers, 4) ? other_board(numbers, &site->levels) : site->levels;
    struct paper_levels given = with_higher_levels(numbers, board);
    if (one_in(numbers, 4))
        full_plan(numbers, site, &other_steps);
    else
        plan_copy(&other_steps, &steps);
    other_list = list;
    for (unsigned changes = (unsigned)ONE_OF(numbers, 0, 1, 4); changes > 0; changes--)
        change_shares(numbers, site, &other_steps);
    if (one_in(numbers, 8))
        change_prices(numbers, site, &other_list);
    change_order(numbers, &other_steps);
    levels_table(&other_levels, &given);
    other_tables.parameters = tables.parameters;
    other_tables.parameters.highest = board.count;
    plan_table(&other_plan, &other_steps);
    prices_table(&other_prices, &other_list);
}

/* Two accepted plans for one job table and the same marks, free ticks and margin come out equal exactly when every job has the same cycles
 * in every interval. */
static void order_other(struct numbers *numbers, const struct paper_site *site)
{
    make_other(numbers, site);
    if (!compare_order(numbers, &other_tables, &other_plan, &other_prices, any_buffer(numbers, other_plan.length), &other_ordered))
        return;
    bool equal = table_equals(&other_ordered, &ordered);
    same("it comes out as the first plan did", equal, paper_same_shares(bytes_of(&other_plan), bytes_of(&plan)));
    call_report("ordering");
}

/* A few jobs in so many ticks that there is room for light ones; or all that there may be, for the longest plans. */
static struct shape light_shape(struct numbers *numbers)
{
    unsigned few = (unsigned)between(numbers, 2, 6);
    return (struct shape) { is_large(numbers) ? PAPER_JOBS : few, (uint32_t)ONE_OF(numbers, 100, 1000, PAPER_TIME, PAPER_TIME) };
}

/* The plan that planning writes, or one with steps in all open pairs where that is as good. */
static bool make_plan(struct numbers *numbers, const struct paper_site *site, bool light)
{
    tables_of_site(site, &levels, &jobs, &marks);
    tables.parameters = site->given.parameters;
    if (!compare_plan(numbers, &tables, enough(site), &plan, &prices))
        return false;
    plan_of_table(&steps, &plan);
    prices_of_table(&list, &prices);
    if (light && one_in(numbers, 2)) {
        full_plan(numbers, site, &steps);
        plan_table(&plan, &steps);
    }
    return true;
}

void ordered_plans(struct numbers *numbers)
{
    bool light = one_in(numbers, 2);
    struct paper_site site = light ? light_site(numbers, light_shape(numbers)) : small_or_large_site(numbers);
    if (!make_plan(numbers, &site, light) || !compare_order(numbers, &tables, &plan, &prices, plan.length, &ordered))
        return;
    for (unsigned i = 0; i < 4; i++)
        order_other(numbers, &site);
}
