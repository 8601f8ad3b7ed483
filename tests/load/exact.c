#include "exact.h"

#include "buffers.h"
#include "call.h"

static struct table levels, jobs, marks, plan, prices;

struct planned plan_exactly(struct numbers *numbers, const struct paper_site *site)
{
    struct planned planned = { .came_out = false };
    const struct site_tables tables = { &levels, &jobs, &marks, site->given.parameters };
    tables_of_site(site, &levels, &jobs, &marks);
    if (!compare_plan(numbers, &tables, enough(site), &plan, &prices))
        return planned;
    struct paper_loads loads = paper_loads(bytes_of(&plan));
    planned = (struct planned) { true, paper_exact(site, &loads), paper_figure(site, &loads) };
    same("exact energy times all gaps, carried out", (int64_t)paper_carried_out(site, &loads), (int64_t)planned.exact);
    call_report("planning");
    return planned;
}
