#include "call.h"

struct ramyearly_fits_answer call_fits(struct paper_tables site, struct paper_bytes plan)
{
    struct ramyearly_fits_answer wanted = paper_fits(site, plan);
    struct ramyearly_fits_answer found = ramyearly_fits(SITE_ARGUMENTS(site), plan.at, plan.length);
    same("whether it fits: number", found.number, wanted.number);
    same("whether it fits: place", found.place, wanted.place);
    same("whether it fits: energy", (int64_t)found.energy, (int64_t)wanted.energy);
    call_count(found.number);
    if (found.number <= REFUSALS)
        tally->by_fits[found.number]++;
    return found;
}

/* What the first half refuses the whole check refuses alike. Where the plan fits, only the prices can be refused. */
static void halves_agree(struct ramyearly_fits_answer first, struct ramyearly_check_answer whole)
{
    bool goes_on = first.number == 0, by_prices = 21 <= whole.number && whole.number <= 24;
    if (goes_on && whole.number == 0) {
        same("energy by the check of a plan that fits", (int64_t)whole.energy, (int64_t)first.energy);
    } else if (goes_on) {
        same("a plan that fits is refused by its prices", by_prices, 1);
    } else {
        same("number by the check of a plan that does not fit", whole.number, first.number);
        same("place by the check of a plan that does not fit", whole.place, first.place);
    }
}

struct ramyearly_fits_answer call_first_half(struct paper_tables site, struct paper_bytes plan, struct ramyearly_check_answer whole)
{
    struct ramyearly_fits_answer first = call_fits(site, plan);
    halves_agree(first, whole);
    return first;
}

struct ramyearly_fits_answer compare_fits(struct numbers *numbers, const struct site_tables *site, const struct table *plan)
{
    call_begin();
    struct paper_tables t = call_lend_site(numbers, site);
    struct ramyearly_fits_answer found = call_fits(t, call_lend(numbers, PLAN, plan));
    call_report("whether a plan fits");
    return found;
}
