/* The second half of the check: the price list of a plan that fits, refusals 21 to 24. */
#include "paper.h"

static unsigned price_of(const struct paper_site *site, struct paper_bytes prices, unsigned interval)
{
    return prices.at[2 + 4 * site->intervals.count + interval];
}

/* 21 and 22. */
static struct paper_refusal list_refusal(const struct paper_site *site, struct paper_bytes prices)
{
    unsigned n = site->intervals.count;
    if (prices.length < 2 || paper_number(prices, 0, 2) != n || prices.length != 2 + 5 * n)
        return paper_refuse(21, 0);
    for (unsigned i = 0; i < n; i++) {
        unsigned price = price_of(site, prices, i);
        if (paper_number(prices, 2 + 4 * i, 4) != site->intervals.bound[i + 1] || price < 1 || price > site->points.m)
            return paper_refuse(22, i);
    }
    return paper_refuse(0, 0);
}

/* Load 0 wants 1; strictly inside band k wants k; the end of band k allows k or k + 1, but m at the top. */
static bool price_fits(const struct paper_points *points, uint64_t length, uint64_t load, unsigned price)
{
    if (load == 0)
        return price == 1;
    unsigned k = paper_band(points, length, load);
    bool at_end = load == length * (uint64_t)points->frequency[k];
    return price == k || (at_end && k < points->m && price == k + 1);
}

/* 23, by interval. */
static struct paper_refusal fitting_refusal(const struct paper_site *site, const struct paper_loads *loads, struct paper_bytes prices)
{
    for (unsigned i = 0; i < site->intervals.count; i++)
        if (!price_fits(&site->points, paper_length(&site->intervals, i), loads->at[i], price_of(site, prices, i)))
            return paper_refuse(23, i);
    return paper_refuse(0, 0);
}

/* 24, by step: the job is open in an interval of smaller price. */
static struct paper_refusal cheaper_refusal(const struct paper_site *site, struct paper_bytes plan, struct paper_bytes prices)
{
    for (unsigned s = 0; s < paper_step_count(plan); s++) {
        struct paper_step step = paper_step(plan, s);
        for (unsigned i = 0; i < site->intervals.count; i++)
            if (paper_open(&site->intervals, i, step.job) && price_of(site, prices, i) < price_of(site, prices, step.interval))
                return paper_refuse(24, s);
    }
    return paper_refuse(0, 0);
}

static struct paper_refusal prices_refusal(const struct paper_site *site, struct paper_bytes plan, struct paper_bytes prices)
{
    struct paper_loads loads = paper_loads(plan);
    struct paper_refusal refusal = list_refusal(site, prices);
    if (!refusal.number)
        refusal = fitting_refusal(site, &loads, prices);
    if (!refusal.number)
        refusal = cheaper_refusal(site, plan, prices);
    return refusal;
}

struct ramyearly_check_answer paper_check(struct paper_tables tables, struct paper_bytes plan, struct paper_bytes prices)
{
    struct paper_site site;
    struct paper_refusal refusal = paper_read_site(tables, &site);
    if (!refusal.number)
        refusal = paper_fits_refusal(&site, plan);
    if (!refusal.number)
        refusal = prices_refusal(&site, plan, prices);
    if (refusal.number)
        return (struct ramyearly_check_answer) { .number = refusal.number, .place = refusal.place };
    struct paper_loads loads = paper_loads(plan);
    return (struct ramyearly_check_answer) { .energy = paper_figure(&site, &loads) };
}
