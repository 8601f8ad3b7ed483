#include <stdio.h>

#include "call.h"
#include "filled.h"

static struct guarded plan_buffer, prices_buffer, shares_buffer;

void call_start_plan(void)
{
    plan_buffer = guarded_buffer(TABLE_ROOM);
    prices_buffer = guarded_buffer(TABLE_ROOM);
    shares_buffer = guarded_buffer(TABLE_ROOM);
}

/* The three buffers of one call of planning, with a pattern from the seed before it. */
struct buffers {
    struct part plan, prices, shares;
    uint8_t seed;
};

static struct buffers fill_buffers(struct numbers *numbers, struct buffer_lengths lengths)
{
    uint8_t choice = any_byte(numbers);
    struct buffers buffers = {
        guarded_part(&plan_buffer, lengths.plan, choice & 1),
        guarded_part(&prices_buffer, lengths.prices, choice & 2),
        guarded_part(&shares_buffer, lengths.shares * sizeof(uint32_t), choice & 4),
        choice
    };
    guarded_set_pattern(&plan_buffer, buffers.plan, buffers.seed);
    guarded_set_pattern(&prices_buffer, buffers.prices, buffers.seed);
    guarded_set_pattern(&shares_buffer, buffers.shares, buffers.seed);
    return buffers;
}

/* Past what was written, and beside the buffers, nothing has changed. */
static void rest_stays(const struct buffers *buffers, size_t plan, size_t prices, size_t shares)
{
    same("the plan buffer's rest stays", guarded_has_pattern_from(&plan_buffer, buffers->plan, plan, buffers->seed), 1);
    same("the price buffer's rest stays", guarded_has_pattern_from(&prices_buffer, buffers->prices, prices, buffers->seed), 1);
    same("the shares' rest stays", guarded_has_pattern_from(&shares_buffer, buffers->shares, shares * sizeof(uint32_t), buffers->seed), 1);
}

/* The shares are the plan's cycles, and 0 where it has no step. */
static void shares_match(const struct paper_site *site, struct paper_bytes plan, const uint32_t *shares)
{
    static uint32_t wanted[PAPER_INTERVALS * PAPER_JOBS];
    unsigned n = site->jobs.count, count = site->intervals.count * n, steps = paper_number(plan, 2, 2);
    for (unsigned i = 0; i < count; i++)
        wanted[i] = 0;
    for (unsigned s = 0; s < steps; s++) {
        unsigned cell = paper_number(plan, 4 + 2 * s, 2);
        wanted[cell / 64 * n + cell % 64] = paper_number(plan, 4 + 2 * steps + 4 * s, 4);
    }
    for (unsigned i = 0; i < count; i++)
        if (shares[i] != wanted[i])
            same("a share", shares[i], wanted[i]);
}

/* Of the plans with its loads it is the one that fills them by interval and job number. */
static void fills_loads(const struct paper_site *site, struct paper_bytes plan, const uint32_t *shares)
{
    static uint32_t wanted[PAPER_INTERVALS * PAPER_JOBS];
    struct paper_loads loads = paper_loads(plan);
    filled_shares(site, &loads, wanted);
    for (unsigned i = 0; i < site->intervals.count * site->jobs.count; i++)
        if (shares[i] != wanted[i])
            same("a share that fills its load", shares[i], wanted[i]);
}

static void smallest_prices(const struct paper_site *site, struct paper_bytes plan, struct paper_bytes prices)
{
    uint8_t price[PAPER_INTERVALS];
    unsigned n = site->intervals.count;
    paper_smallest_prices(site, plan, price);
    for (unsigned i = 0; i < n; i++)
        same("a price, smallest", prices.at[2 + 4 * n + i], price[i]);
}

static void count_short_plan(const struct paper_site *site, unsigned steps, size_t plan_length)
{
    unsigned pairs = paper_pairs(&site->intervals), limit = site->jobs.count + site->intervals.count - 1;
    tally->short_plans.at_limit += steps == limit && limit < pairs;
    tally->short_plans.at_pairs += steps == pairs && pairs < limit;
    tally->short_plans.most_steps += steps == PAPER_STEPS_PLANNED;
    tally->short_plans.spared += plan_length < 4 + 6 * (size_t)pairs;
}

static void count_plan(const struct paper_site *site)
{
    const struct paper_marks none = { .count = 0 };
    tally->plans++;
    tally->cut += site->intervals.count > paper_intervals(&site->jobs, &none).count;
    tally->most_intervals += site->intervals.count == PAPER_INTERVALS;
    tally->most_pairs += paper_pairs(&site->intervals) == PAPER_PAIRS;
}

/* A plan came out. Its numbers are looked at first, so that nothing is read past what was written. */
static void judge_plan(const struct buffers *buffers, struct paper_tables t, struct ramyearly_plan_answer found, struct table *plan,
    struct table *prices)
{
    struct paper_site site;
    paper_read_site(t, &site);
    same("no more steps than there may be", found.steps <= paper_step_limit(&site), 1);
    if (!call_agrees())
        return;
    struct paper_bytes p = { plan_buffer.lent + buffers->plan.start, 4 + 6 * (size_t)found.steps };
    struct paper_bytes r = { prices_buffer.lent + buffers->prices.start, 2 + 5 * (size_t)found.intervals };
    const uint32_t *shares = (const uint32_t *)(const void *)(shares_buffer.lent + buffers->shares.start);
    rest_stays(buffers, p.length, r.length, (size_t)site.jobs.count * found.intervals);
    struct ramyearly_check_answer by_paper = paper_check(t, p, r);
    same("the paper's check of the plan: number", by_paper.number, 0);
    same("the paper's check of the plan: place", by_paper.place, 0);
    same("the paper's check of the plan: energy", (int64_t)by_paper.energy, (int64_t)found.energy);
    struct ramyearly_check_answer by_archive = call_check(t, p, r);
    call_count(by_archive.number);
    same("the archive's check of the plan: number", by_archive.number, 0);
    same("the archive's check of the plan: place", by_archive.place, 0);
    same("the archive's check of the plan: energy", (int64_t)by_archive.energy, (int64_t)found.energy);
    call_first_half(t, p, by_archive);
    if (!call_agrees())
        return;
    shares_match(&site, p, shares);
    fills_loads(&site, p, shares);
    smallest_prices(&site, p, r);
    count_plan(&site);
    count_short_plan(&site, found.steps, buffers->plan.length);
    table_keep(plan, p);
    table_keep(prices, r);
}

bool compare_plan(struct numbers *numbers, const struct site_tables *site, struct buffer_lengths lengths, struct table *plan, struct table *prices)
{
    call_begin();
    struct paper_tables t = call_lend_site(numbers, site);
    struct buffers buffers = fill_buffers(numbers, lengths);
    struct ramyearly_plan_answer found = ramyearly_plan(SITE_ARGUMENTS(t), plan_buffer.lent + buffers.plan.start, lengths.plan,
        prices_buffer.lent + buffers.prices.start, lengths.prices, (uint32_t *)(void *)(shares_buffer.lent + buffers.shares.start), lengths.shares);
    struct ramyearly_plan_answer wanted = paper_planning(t, lengths.plan, lengths.prices, lengths.shares);
    same("number", found.number, wanted.number);
    same("place", found.place, wanted.place);
    same("intervals", found.intervals, wanted.intervals);
    same("start", found.start, wanted.start);
    same("end", found.end, wanted.end);
    same("spare", found.spare, wanted.spare);
    if (wanted.number) {
        same("steps", found.steps, 0);
        same("energy", (int64_t)found.energy, 0);
        rest_stays(&buffers, 0, 0, 0);
    } else if (call_agrees()) {
        judge_plan(&buffers, t, found, plan, prices);
    }
    call_count_altered(t, wanted.number, wanted.place, &tally->altered.plans);
    if (!call_agrees())
        printf("  buffers of %zu bytes, %zu bytes and %zu numbers\n", lengths.plan, lengths.prices, lengths.shares);
    bool planned = found.number == 0 && call_agrees();
    call_end("planning", found.number);
    return planned;
}
