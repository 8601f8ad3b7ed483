#include "marks_cases.h"

#include "buffers.h"
#include "call.h"
#include "exact.h"
#include "marks.h"
#include "sites.h"
#include "spans.h"

static struct table levels, jobs, marks, more_marks;

/* A plan comes out with marks exactly when it does without, and has the same energy. */
static void same_energy(struct numbers *numbers, const struct paper_site *site)
{
    struct paper_site unmarked = site_given(site->given, (struct paper_marks) { .count = 0 });
    struct planned with = plan_exactly(numbers, site), without = plan_exactly(numbers, &unmarked);
    same("a plan came out with marks", with.came_out, without.came_out);
    same("exact energy with marks times all gaps", (int64_t)with.exact, (int64_t)without.exact);
    same("figure with marks", (int64_t)with.figure, (int64_t)without.figure);
    call_report("a site with marks and without");
}

/* Marks without effect change no answer and no byte, beside no marks or beside others. */
static void same_bytes_written(struct numbers *numbers, const struct paper_site *site)
{
    const struct paper_parameters parameters = site->given.parameters;
    const struct site_tables one = { &levels, &jobs, &marks, parameters }, other = { &levels, &jobs, &more_marks, parameters };
    struct paper_marks more = more_without_effect(numbers, &site->jobs, site->marks);
    tables_of_site(site, &levels, &jobs, &marks);
    marks_table(&more_marks, &more);
    compare_alike(numbers, &one, &other, (struct questions) { .length = 1, .window = any_span(numbers, site), .buffers = enough(site) });
}

void marked_sites(struct numbers *numbers)
{
    struct paper_site site = small_or_large_site(numbers);
    struct paper_site marked = site_given(site.given, some_marks(numbers, &site.jobs));
    same_energy(numbers, &marked);
    same_bytes_written(numbers, &site);
}
