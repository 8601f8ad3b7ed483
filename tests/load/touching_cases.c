#include "touching_cases.h"

#include "buffers.h"
#include "change.h"
#include "damage.h"
#include "other.h"
#include "parameters.h"
#include "sites.h"
#include "spans.h"

static struct table levels, jobs, marks, plan, prices;
static struct site_tables tables = { .levels = &levels, .jobs = &jobs, .marks = &marks };
static struct plan steps;

/* Around the lengths wanted; or any where the call is refused whatever they are. */
static struct list_lengths any_lists(struct numbers *numbers, const struct site_tables *given, const struct table *plan_of_jobs, struct window span)
{
    static struct paper_touched ignored;
    const struct paper_tables bytes = { .jobs = bytes_of(given->jobs), .marks = bytes_of(given->marks), .parameters = given->parameters };
    struct ramyearly_touching_answer wanted
        = paper_touching(bytes, bytes_of(plan_of_jobs), span.start, span.end, SIZE_MAX, SIZE_MAX, SIZE_MAX, &ignored);
    struct list_lengths lengths;
    lengths.open = any_buffer(numbers, wanted.open);
    lengths.inside = any_buffer(numbers, wanted.inside);
    lengths.steps = any_buffer(numbers, wanted.steps);
    return lengths;
}

void touch_any(struct numbers *numbers, const struct paper_site *near, const struct site_tables *given, const struct table *plan_of_jobs)
{
    struct window span = any_span(numbers, near);
    compare_touching(numbers, given, plan_of_jobs, span, any_lists(numbers, given, plan_of_jobs, span));
}

/* The plan that planning writes, where one comes out; or one that nobody made least. */
static void make_steps(struct numbers *numbers, const struct paper_site *site)
{
    if (one_in(numbers, 4) && compare_plan(numbers, &tables, enough(site), &plan, &prices))
        plan_of_table(&steps, &plan);
    else
        hand_made_plan(numbers, site, &steps);
}

/* Half of the plans have sums that do not add up, though each step is right by itself; some have a change or damaged bytes. */
static void make_plan(struct numbers *numbers, const struct paper_site *site)
{
    make_steps(numbers, site);
    if (one_in(numbers, 2))
        change_sums(numbers, &steps);
    if (!one_in(numbers, 4))
        change_order(numbers, &steps);
    if (one_in(numbers, 6))
        change_plan(numbers, site, &steps);
    plan_table(&plan, &steps);
    if (one_in(numbers, 24))
        damage_bytes(numbers, &plan);
}

void touched_spans(struct numbers *numbers)
{
    struct paper_site site = one_in(numbers, 4) ? light_site(numbers, small_shape(numbers)) : small_or_large_site(numbers);
    tables_of_site(&site, &levels, &jobs, &marks);
    tables.parameters = site.given.parameters;
    make_plan(numbers, &site);
    if (one_in(numbers, 24))
        damage_jobs(numbers, &jobs);
    if (one_in(numbers, 24))
        damage_marks(numbers, &marks);
    if (one_in(numbers, 24))
        tables.parameters = other_parameters(numbers, &site.given);
    for (unsigned i = 0; i < 6; i++)
        touch_any(numbers, &site, &tables, &plan);
}
