/* Calls the archive as the kernel does: each function with good tables and with damaged ones. Prints what differs from
 * document 01 and its changes, and answers 1 then. What is wanted was worked out by hand from those pages, as the comments
 * show.
 *
 * For every two fields of an answer, and every two parameters of a function, some case has different values in the two, so
 * that a header with one in the other's place is found: tests/c/swaps tries each. The calls go by the header's names:
 * calls.h, which tests/c/build makes of the header, has CALL_SPARE, the call of ramyearly_spare with the variables that are
 * named as its parameters, in the header's order. */
#include <stdio.h>

#include "support.h"

/* 3 at 10, 5 at 20, 9 at 30. Powers 3 x 100, 5 x 400, 9 x 900; gaps 3, 2, 4; prices 300 / 3 = 100, 1,700 / 2 = 850 and
 * 6,100 / 4 = 1,525. They rise, so all three levels work. */
static struct bytes three_levels(void)
{
    return table(2, 3, (const uint32_t[]) { 3, 5, 9, 10, 20, 30 }, 6);
}

/* The fastest level of all, 1,000 at 500: power 250,000,000, price 250,000. */
static struct bytes fastest_level(void)
{
    return table(2, 1, (const uint32_t[]) { 1000, 500 }, 2);
}

/* The listed site: jobs 0 4 6 and 2 3 4. Bounds 0, 2, 3, 4. */
static struct bytes listed_jobs(void)
{
    return table(4, 2, (const uint32_t[]) { 0, 4, 2, 3, 6, 4 }, 6);
}

/* The plan that document 01 lists for it, with the cycles of its last step as given. */
static struct bytes listed_plan(uint32_t last)
{
    return plan_of(3, 3, (const uint32_t[][3]) { { 0, 0, 4 }, { 1, 1, 4 }, { 2, 0, last } });
}

static struct bytes listed_prices(uint8_t first, uint8_t second, uint8_t third)
{
    return prices_of(3, (const uint32_t[]) { 2, 3, 4 }, (const uint8_t[]) { first, second, third });
}

/* Two jobs apart: 0 1 2 and 5 6 4. Bounds 0, 1, 5, 6; no job is open in the interval between the two, and each job in one
 * interval only, so that there is one plan, of fewer steps than intervals. */
static struct bytes jobs_apart(void)
{
    return table(4, 2, (const uint32_t[]) { 0, 1, 5, 6, 2, 4 }, 6);
}

static struct bytes plan_apart(void)
{
    return plan_of(3, 2, (const uint32_t[][3]) { { 0, 0, 2 }, { 2, 1, 4 } });
}

/* Under T load 2 in one tick fills band 1 and may be priced 1 or 2; load 0 wants 1; load 4 is the top, which wants 2. */
static struct bytes prices_apart(uint8_t first)
{
    return prices_of(3, (const uint32_t[]) { 1, 5, 6 }, (const uint8_t[]) { first, 1, 2 });
}

/* One job that the fastest level just serves, in the longest window. */
static struct bytes largest_job(void)
{
    return table(4, 1, (const uint32_t[]) { 0, 1000000, 1000000000 }, 3);
}

static void settings(void)
{
    struct bytes t = level_pair(), three = three_levels();
    setting_is("load 7 in 3", t, 3, 7, (struct ramyearly_setting_answer) { .band = 2, .extra = 1, .gap = 2 });
    setting_is("load 12 in 3", t, 3, 12, (struct ramyearly_setting_answer) { .band = 2, .extra = 6, .gap = 2 });
    setting_is("load 13 in 3", t, 3, 13, (struct ramyearly_setting_answer) { .number = 26 });
    /* 10 x 5 = 50 is below 63, and 10 x 9 = 90 is not: band 3, extra 63 - 50, gap 9 - 5. In 63 ticks a load of 10 is in
     * band 1. */
    setting_is("load 63 in 10", three, 10, 63, (struct ramyearly_setting_answer) { .band = 3, .extra = 13, .gap = 4 });
    setting_is("load 10 in 63", three, 63, 10, (struct ramyearly_setting_answer) { .band = 1, .extra = 10, .gap = 3 });
    setting_is("load 0", t, 3, 0, (struct ramyearly_setting_answer) { .number = 0 });
    setting_is("length 0", t, 0, 1, (struct ramyearly_setting_answer) { .number = 25 });
    setting_is("length past the limit", t, 1000001, 1, (struct ramyearly_setting_answer) { .number = 25 });
    setting_is("largest numbers", t, 1000000, UINT64_MAX, (struct ramyearly_setting_answer) { .number = 26 });
    setting_is("no bytes", (struct bytes) { .length = 0 }, 3, 7, (struct ramyearly_setting_answer) { .number = 1 });
    setting_is("a byte missing", cut(t), 3, 7, (struct ramyearly_setting_answer) { .number = 3 });
    setting_is("equal frequencies", table(2, 2, (const uint32_t[]) { 2, 2, 10, 20 }, 4), 3, 7,
        (struct ramyearly_setting_answer) { .number = 4, .place = 1 });
    setting_is("a falling voltage", table(2, 3, (const uint32_t[]) { 3, 5, 9, 10, 20, 15 }, 6), 10, 63,
        (struct ramyearly_setting_answer) { .number = 5, .place = 2 });
}

static void spares(void)
{
    struct bytes t = level_pair(), jobs = listed_jobs();
    spare_is("one job that fills", t, table(4, 1, (const uint32_t[]) { 0, 1, 4 }, 3), 0, 1, (struct ramyearly_spare_answer) { .spare = 0 });
    spare_is("one cycle too many", t, table(4, 1, (const uint32_t[]) { 0, 1, 5 }, 3), 0, 1, (struct ramyearly_spare_answer) { .spare = -1 });
    /* 1 x 4 - 5 x 1,000,000,000, which has no room in 32 bits. */
    spare_is("far overfull", t,
        table(4, 5, (const uint32_t[]) { 0, 1, 0, 1, 0, 1, 0, 1, 0, 1, 1000000000, 1000000000, 1000000000, 1000000000, 1000000000 }, 15), 0, 1,
        (struct ramyearly_spare_answer) { .spare = -4999999996 });
    /* Both jobs are inside: 4 x 4 - 6 - 4. From 1 on only the second is: 3 x 4 - 4. */
    spare_is("two jobs", t, jobs, 0, 4, (struct ramyearly_spare_answer) { .spare = 6 });
    spare_is("a later start", t, jobs, 1, 4, (struct ramyearly_spare_answer) { .spare = 8 });
    spare_is("start after end", t, jobs, 4, 1, (struct ramyearly_spare_answer) { .number = 27 });
    spare_is("no window", t, jobs, 2, 2, (struct ramyearly_spare_answer) { .number = 27 });
    spare_is("an empty job window", t, table(4, 2, (const uint32_t[]) { 0, 4, 3, 3, 6, 4 }, 6), 1, 4,
        (struct ramyearly_spare_answer) { .number = 9, .place = 1 });
    spare_is("jobs damaged", t, cut(jobs), 2, 2, (struct ramyearly_spare_answer) { .number = 8 });
    spare_is("both damaged", cut(t), cut(jobs), 2, 2, (struct ramyearly_spare_answer) { .number = 3 });
}

static void checks(void)
{
    struct bytes t = level_pair(), jobs = listed_jobs(), plan = listed_plan(2), prices = listed_prices(1, 2, 1);
    check_is("the listed plan", t, jobs, plan, prices, (struct ramyearly_check_answer) { .energy = 2200 });
    check_is("levels damaged", cut(t), jobs, plan, prices, (struct ramyearly_check_answer) { .number = 3 });
    check_is("jobs damaged", t, cut(jobs), plan, prices, (struct ramyearly_check_answer) { .number = 8 });
    check_is("plan damaged", t, jobs, cut(plan), prices, (struct ramyearly_check_answer) { .number = 15 });
    check_is("a cycle missing", t, jobs, listed_plan(1), prices, (struct ramyearly_check_answer) { .number = 19, .place = 0 });
    check_is("prices damaged", t, jobs, plan, cut(prices), (struct ramyearly_check_answer) { .number = 21 });
    check_is("no such band", t, jobs, plan, listed_prices(1, 3, 1), (struct ramyearly_check_answer) { .number = 22, .place = 1 });
    check_is("a price below its load", t, jobs, plan, listed_prices(1, 1, 1), (struct ramyearly_check_answer) { .number = 23, .place = 1 });
    /* Job 0 is open in all three intervals, with a load that fills band 1 in the first and the third. */
    check_is("a cheaper interval later", t, jobs, plan, listed_prices(2, 2, 1), (struct ramyearly_check_answer) { .number = 24, .place = 0 });
    check_is("a cheaper interval earlier", t, jobs, plan, listed_prices(1, 2, 2), (struct ramyearly_check_answer) { .number = 24, .place = 2 });
    /* Band 1 takes 2 cycles of each job, band 2 another 2 of the second: 4 x 100 + 2 x 700. */
    check_is("two jobs apart", t, jobs_apart(), plan_apart(), prices_apart(2), (struct ramyearly_check_answer) { .energy = 1800 });
    /* 1,000,000,000 x 250,000, which has no room in 32 bits. */
    check_is("the largest job", fastest_level(), largest_job(), plan_of(1, 1, (const uint32_t[][3]) { { 0, 0, 1000000000 } }),
        prices_of(1, (const uint32_t[]) { 1000000 }, (const uint8_t[]) { 1 }), (struct ramyearly_check_answer) { .energy = 250000000000000 });
    check_is("no jobs", t, table(4, 0, NULL, 0), (struct bytes) { .at = { 0 }, .length = 4 }, (struct bytes) { .at = { 0 }, .length = 2 },
        (struct ramyearly_check_answer) { .energy = 0 });
}

static void plans(void)
{
    struct bytes t = level_pair(), jobs = listed_jobs();
    /* The listed plan is the only least one of its site. */
    struct ramyearly_plan_answer listed = { .intervals = 3, .steps = 3, .energy = 2200 };
    written_is("the listed site's plan", plan_is("the listed site", t, jobs, 64, 32, 16, listed), listed_plan(2), listed_prices(1, 2, 1),
        (const uint32_t[]) { 4, 0, 0, 4, 2, 0 }, 6);
    /* The one plan there is, at its smallest prices; its energy is that of the check. */
    struct ramyearly_plan_answer apart = { .intervals = 3, .steps = 2, .energy = 1800 };
    written_is("the plan of two jobs apart", plan_is("two jobs apart", t, jobs_apart(), 64, 32, 16, apart), plan_apart(), prices_apart(1),
        (const uint32_t[]) { 2, 0, 0, 0, 0, 4 }, 6);
    plan_is("the largest job", fastest_level(), largest_job(), 64, 32, 16,
        (struct ramyearly_plan_answer) { .intervals = 1, .steps = 1, .energy = 250000000000000 });
    /* The listed site has 3 + 1 open pairs, as many as 2 jobs + 3 intervals - 1: 4 + 6 x 4, 2 + 5 x 3 and 2 x 3. */
    plan_is("just long enough", t, jobs, 28, 17, 6, listed);
    plan_is("plan buffer too short", t, jobs, 27, 17, 6, (struct ramyearly_plan_answer) { .number = 12, .place = 28 });
    plan_is("price buffer too short", t, jobs, 28, 16, 6, (struct ramyearly_plan_answer) { .number = 13, .place = 17 });
    plan_is("shares too few", t, jobs, 28, 17, 5, (struct ramyearly_plan_answer) { .number = 14, .place = 6 });
    plan_is("overfull", t, table(4, 1, (const uint32_t[]) { 0, 1, 5 }, 3), 64, 32, 16,
        (struct ramyearly_plan_answer) { .number = 11, .start = 0, .end = 1, .spare = -1 });
    /* Jobs 0 9 1 and 2 5 15. From 0 on there is room: 20 for 15 cycles by 5, 36 for 16 by 9. From 2 to 5 the second job has 3 x 4
     * of its 15. */
    plan_is("a later window overfull", t, table(4, 2, (const uint32_t[]) { 0, 9, 2, 5, 1, 15 }, 6), 64, 32, 16,
        (struct ramyearly_plan_answer) { .number = 11, .start = 2, .end = 5, .spare = -3 });
    plan_is("a job without cycles", t, table(4, 2, (const uint32_t[]) { 0, 4, 2, 3, 6, 0 }, 6), 64, 32, 16,
        (struct ramyearly_plan_answer) { .number = 10, .place = 1 });
    plan_is("levels damaged", cut(t), jobs, 64, 32, 16, (struct ramyearly_plan_answer) { .number = 3 });
    plan_is("jobs damaged", t, cut(jobs), 64, 32, 16, (struct ramyearly_plan_answer) { .number = 8 });
    plan_is("no jobs", t, table(4, 0, NULL, 0), 4, 2, 0, (struct ramyearly_plan_answer) { .number = 0 });
}

int main(void)
{
    settings();
    spares();
    checks();
    plans();
    rounds();
    idle();
    order();
    touching();
    marks();
    boards();
    fits();
    parameters();
    parameter_refusals();
    short_plans();
    nearest();
    if (!wrong)
        printf("interface: check, fits, setting, spare, plan, rounds, order, touching and nearest answer C as they should\n");
    return wrong;
}
