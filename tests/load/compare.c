#include "compare.h"

#include <inttypes.h>
#include <stdio.h>

#include "call.h"

void compare_start(void)
{
    call_start();
    call_start_plan();
    call_start_rounds();
    call_start_order();
    call_start_touching();
    call_start_nearest();
}

void compare_setting(struct numbers *numbers, const struct table *levels, uint32_t highest, uint32_t length, uint64_t load)
{
    call_begin();
    struct paper_bytes l = call_lend(numbers, LEVELS, levels);
    struct ramyearly_setting_answer found = ramyearly_setting(l.at, l.length, highest, length, load);
    struct ramyearly_setting_answer wanted = paper_setting(l, highest, length, load);
    same("number", found.number, wanted.number);
    same("place", found.place, wanted.place);
    same("band", found.band, wanted.band);
    same("gap", found.gap, wanted.gap);
    same("extra", (int64_t)found.extra, (int64_t)wanted.extra);
    if (!call_agrees())
        printf("  highest level %" PRIu32 ", length %" PRIu32 ", load %" PRIu64 "\n", highest, length, load);
    call_end("the setting", found.number);
}

void compare_spare(struct numbers *numbers, const struct site_tables *site, uint32_t start, uint32_t end)
{
    call_begin();
    struct paper_tables t = { .parameters = call_lend_parameters(site->parameters) };
    t.levels = call_lend(numbers, LEVELS, site->levels);
    t.jobs = call_lend(numbers, JOBS, site->jobs);
    struct ramyearly_spare_answer found = call_spare(t, start, end), wanted = paper_spare(t, start, end);
    same("number", found.number, wanted.number);
    same("place", found.place, wanted.place);
    same("spare", found.spare, wanted.spare);
    if (!call_agrees())
        printf("  start %" PRIu32 ", end %" PRIu32 "\n", start, end);
    call_end("the spare", found.number);
}

struct ramyearly_check_answer compare_check(struct numbers *numbers, const struct site_tables *site, const struct table *plan,
    const struct table *prices)
{
    call_begin();
    struct paper_tables t = call_lend_site(numbers, site);
    struct paper_bytes p = call_lend(numbers, PLAN, plan), r = call_lend(numbers, PRICES, prices);
    struct ramyearly_check_answer found = call_check(t, p, r), wanted = paper_check(t, p, r);
    same("number", found.number, wanted.number);
    same("place", found.place, wanted.place);
    same("energy", (int64_t)found.energy, (int64_t)wanted.energy);
    call_first_half(t, p, found);
    tally->accepted += found.number == 0;
    call_count_altered(t, wanted.number, wanted.place, &tally->altered.accepted);
    call_end("the check", found.number);
    return found;
}
