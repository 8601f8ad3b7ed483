#include "fits_cases.h"

#include "buffers.h"
#include "call.h"
#include "change.h"
#include "damage.h"
#include "fitting.h"
#include "other.h"
#include "sites.h"

/* The site's tables, a plan that fits, and one that is made of it. */
static struct table levels, jobs, marks, plan, prices;
static struct site_tables tables = { .levels = &levels, .jobs = &jobs, .marks = &marks };
static struct plan fitting, steps;
static struct prices list;

static void make_tables(const struct paper_site *site)
{
    tables_of_site(site, &levels, &jobs, &marks);
    tables.parameters = site->given.parameters;
}

/* The plan that planning writes, where one comes out. */
static bool make_fitting(struct numbers *numbers, const struct paper_site *site)
{
    make_tables(site);
    if (!compare_plan(numbers, &tables, enough(site), &plan, &prices))
        return false;
    plan_of_table(&fitting, &plan);
    return true;
}

/* As if made for the plan, with a change, or any bytes. */
static void make_prices(struct numbers *numbers, const struct paper_site *site)
{
    band_prices(site, &steps, &list);
    if (!one_in(numbers, 4))
        change_prices(numbers, site, &list);
    prices_table(&prices, &list);
    if (one_in(numbers, 8))
        damage_bytes(numbers, &prices);
    if (one_in(numbers, 8))
        any_bytes(numbers, &prices, 40, site->intervals.count);
}

/* The refusal is known by how the plan was made, also without the paper. */
static void fit_changed(struct numbers *numbers, const struct paper_site *site)
{
    plan_copy(&steps, &fitting);
    struct paper_refusal wanted = change_fitting(numbers, site, &steps);
    plan_table(&plan, &steps);
    struct ramyearly_fits_answer found = compare_fits(numbers, &tables, &plan);
    same("number by how the plan was made", found.number, wanted.number);
    same("place by how the plan was made", found.place, wanted.place);
    call_report("whether a changed plan fits");
    if (wanted.number == 0)
        plan_copy(&fitting, &steps);
    make_prices(numbers, site);
    compare_check(numbers, &tables, &plan, &prices);
}

/* Changes of a plan that leave it fitting add up, so that it is ever further from what planning wrote. */
void fitting_plans(struct numbers *numbers)
{
    struct paper_site site = small_or_large_site(numbers);
    if (!make_fitting(numbers, &site))
        return;
    for (unsigned i = 0; i < 6; i++)
        fit_changed(numbers, &site);
}

static void fit_tiny_plan(const struct paper_site *site, bool has_placement, uint64_t least)
{
    struct paper_loads loads = paper_loads(bytes_of(&plan));
    uint64_t exact = paper_exact(site, &loads);
    same("a plan that fits is a placement", has_placement, 1);
    same("it has no less than the least exact energy", exact >= least, 1);
    same("it is carried out and meets all deadlines", paper_carries_out(site, bytes_of(&plan)), 1);
    tally->least += exact == least;
    tally->dearer += exact > least;
    call_report("a plan that fits a tiny site");
}

void fit_tiny_site(struct numbers *numbers, const struct paper_site *site, bool has_placement, uint64_t least)
{
    make_tables(site);
    for (unsigned i = 0; i < 3; i++) {
        hand_made_plan(numbers, site, &steps);
        plan_table(&plan, &steps);
        if (compare_fits(numbers, &tables, &plan).number == 0)
            fit_tiny_plan(site, has_placement, least);
    }
}
