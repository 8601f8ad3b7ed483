/* The cases of writing a plan in cell order. */
#include <string.h>

#include "support.h"

enum { NONE = 0, LONG = 1000 };

/* Jobs 0 8 7, 0 8 5 and 4 6 8. Bounds 0, 4, 6, 8; the first two jobs are open in all three intervals. */
static struct bytes three_jobs(void)
{
    return table(4, 3, (const uint32_t[]) { 0, 8, 0, 8, 4, 6, 7, 5, 8 }, 9);
}

static struct bytes three_prices(uint8_t first, uint8_t second, uint8_t third)
{
    return prices_of(3, (const uint32_t[]) { 4, 6, 8 }, (const uint8_t[]) { first, second, third });
}

/* Under T the third job's 8 cycles fill its 2 ticks to the top, and the 12 of the others fill band 1 in the 4 and the 2 ticks
 * that are left: 16 x 100 + 4 x 700 whichever of the two has how many where. Prices 1 2 1, or 2 2 2. */
static const uint64_t ENERGY = 4400;

/* The plan that gives the first job that many cycles in the first interval, 4 to 6. Its cells are 0, 1, 66, 128 and 129. */
static struct bytes ordered_plan(uint32_t first)
{
    return plan_of(3, 5, (const uint32_t[][3]) { { 0, 0, first }, { 0, 1, 8 - first }, { 1, 2, 8 }, { 2, 0, 7 - first }, { 2, 1, first - 3 } });
}

/* The one with 5, out of order: the step of the third job last, with its interval, job and cycles as given. */
static struct bytes mixed_plan(uint32_t interval, uint32_t job, uint32_t cycles)
{
    return plan_of(3, 5, (const uint32_t[][3]) { { 2, 1, 2 }, { 0, 0, 5 }, { 2, 0, 2 }, { 0, 1, 3 }, { interval, job, cycles } });
}

/* An accepted plan that comes out as these bytes, from a buffer just long enough and a longer one. They are accepted with the
 * same figure, and come out unchanged. */
static void comes_out(const char *name, struct bytes levels, struct bytes jobs, struct bytes plan, struct bytes prices, uint64_t energy,
    struct bytes ordered)
{
    struct ramyearly_order_answer answer = { .length = (uint32_t)plan.length };
    check_is(name, levels, jobs, plan, prices, (struct ramyearly_check_answer) { .energy = energy });
    order_is(name, levels, jobs, plan, prices, LONG, answer, ordered);
    struct bytes written = order_is(name, levels, jobs, plan, prices, plan.length, answer, ordered);
    check_is(name, levels, jobs, written, prices, (struct ramyearly_check_answer) { .energy = energy });
    order_is(name, levels, jobs, written, prices, plan.length + 1, answer, ordered);
}

static void swap(uint32_t steps[5][3], unsigned a, unsigned b)
{
    uint32_t step[3];
    memcpy(step, steps[a], sizeof step);
    memcpy(steps[a], steps[b], sizeof step);
    memcpy(steps[b], step, sizeof step);
}

/* The plan with 6 in each order of its steps. The first of them is its own order. */
static void every_order(void)
{
    for (unsigned n = 0; n < 5 * 4 * 3 * 2; n++) {
        uint32_t steps[5][3] = { { 0, 0, 6 }, { 0, 1, 2 }, { 1, 2, 8 }, { 2, 0, 1 }, { 2, 1, 3 } };
        swap(steps, 0, n % 5);
        swap(steps, 1, 1 + n / 5 % 4);
        swap(steps, 2, 2 + n / 20 % 3);
        swap(steps, 3, 3 + n / 60);
        comes_out("each order of five steps", level_pair(), three_jobs(), plan_of(3, 5, (const uint32_t(*)[3])steps), three_prices(1, 2, 1), ENERGY,
            ordered_plan(6));
    }
}

/* Plans that differ by one cycle in two intervals, with the same cells, come out as different bytes; other levels and prices
 * make no difference. */
static void spellings(void)
{
    struct bytes t = level_pair(), jobs = three_jobs(), mixed = mixed_plan(1, 2, 8);
    for (uint32_t first = 4; first <= 6; first++)
        comes_out("a plan in order", t, jobs, ordered_plan(first), three_prices(1, 2, 1), ENERGY, ordered_plan(first));
    comes_out("a plan out of order", t, jobs, mixed, three_prices(1, 2, 1), ENERGY, ordered_plan(5));
    comes_out("other prices", t, jobs, mixed, three_prices(2, 2, 2), ENERGY, ordered_plan(5));
    /* 2 at 100, 4 at 200, and idling draws 5,000: powers 20,000 and 160,000, prices 15,000 / 2 and 140,000 / 2. So 16 x 7,500 +
     * 4 x 70,000 + 8 x 5,000. */
    comes_out("other levels", table(2, 3, (const uint32_t[]) { 0, 2, 4, 5, 100, 200 }, 6), jobs, mixed, three_prices(1, 2, 1), 440000,
        ordered_plan(5));
}

/* Intervals of 32 ticks with one tick between, all at price 1. */
static struct bytes most_prices(void)
{
    uint32_t ends[127];
    uint8_t prices[127];
    memset(prices, 1, sizeof prices);
    for (uint32_t i = 0; i < 127; i++)
        ends[i] = i / 2 * 33 + 32 + i % 2;
    return prices_of(127, ends, prices);
}

/* 64 jobs apart, the last first: job j from 33 x (63 - j) on for 32 ticks, of j + 1 cycles. It has one step, in interval
 * 2 x (63 - j), so that cells have two bytes and rise as jobs fall. Band 1 takes 64 cycles in 32 ticks: 2,080 x 100. */
static void most_intervals(void)
{
    uint32_t numbers[3 * 64], by_job[64][3], by_cell[64][3];
    for (uint32_t j = 0; j < 64; j++) {
        numbers[2 * j] = 33 * (63 - j);
        numbers[2 * j + 1] = 33 * (63 - j) + 32;
        numbers[128 + j] = j + 1;
        by_job[j][0] = by_cell[63 - j][0] = 2 * (63 - j);
        by_job[j][1] = by_cell[63 - j][1] = j;
        by_job[j][2] = by_cell[63 - j][2] = j + 1;
    }
    comes_out("64 jobs", level_pair(), table(4, 64, numbers, 3 * 64), plan_of(127, 64, (const uint32_t(*)[3])by_job), most_prices(), 208000,
        plan_of(127, 64, (const uint32_t(*)[3])by_cell));
}

/* 1,000 at 500 has price 250,000: 999,999,999 x 250,000. */
static void longest_cycles(void)
{
    struct bytes jobs = table(4, 2, (const uint32_t[]) { 0, 500000, 500000, 1000000, 499999999, 500000000 }, 6);
    struct bytes plan = plan_of(2, 2, (const uint32_t[][3]) { { 1, 1, 500000000 }, { 0, 0, 499999999 } });
    struct bytes prices = prices_of(2, (const uint32_t[]) { 500000, 1000000 }, (const uint8_t[]) { 1, 1 });
    comes_out("cycles of four bytes", table(2, 1, (const uint32_t[]) { 1000, 500 }, 2), jobs, plan, prices, 249999999750000,
        plan_of(2, 2, (const uint32_t[][3]) { { 0, 0, 499999999 }, { 1, 1, 500000000 } }));
}

/* A plan of 4 bytes. */
static void no_jobs(void)
{
    struct bytes t = level_pair(), jobs = table(4, 0, NULL, 0), plan = plan_of(0, 0, NULL), prices = prices_of(0, NULL, NULL);
    comes_out("no jobs", t, jobs, plan, prices, 0, plan);
    order_refused("no jobs and a short buffer", t, jobs, plan, prices, 3, 12, 4);
    order_refused("no jobs and no buffer", t, jobs, plan, prices, NONE, 12, 4);
    order_refused("no jobs and no plan", t, jobs, cut(plan), prices, 4, 15, 0);
}

/* The plan has 4 + 6 x 5 bytes. */
static void short_buffers(void)
{
    for (size_t length = 0; length < 34; length++)
        order_refused("a short buffer", level_pair(), three_jobs(), mixed_plan(1, 2, 8), three_prices(1, 2, 1), length, 12, 34);
    order_refused("a short buffer for a plan in order", level_pair(), three_jobs(), ordered_plan(5), three_prices(1, 2, 1), 33, 12, 34);
}

/* The check's refusal, whether or not the buffer is long enough. */
static void refused(const char *name, struct bytes levels, struct bytes jobs, struct bytes plan, struct bytes prices, uint32_t number, uint32_t place)
{
    check_is(name, levels, jobs, plan, prices, (struct ramyearly_check_answer) { .number = number, .place = place });
    order_refused(name, levels, jobs, plan, prices, NONE, number, place);
    order_refused(name, levels, jobs, plan, prices, plan.length / 2, number, place);
    order_refused(name, levels, jobs, plan, prices, plan.length, number, place);
    order_refused(name, levels, jobs, plan, prices, LONG, number, place);
}

/* With a plan and a price list that are damaged too, and named only after the levels. */
static void levels_refused(const char *name, struct bytes levels, uint32_t number, uint32_t place)
{
    refused(name, levels, three_jobs(), cut(mixed_plan(1, 2, 8)), cut(three_prices(1, 2, 1)), number, place);
}

static void jobs_refused(const char *name, struct bytes jobs, uint32_t number, uint32_t place)
{
    refused(name, level_pair(), jobs, cut(mixed_plan(1, 2, 8)), cut(three_prices(1, 2, 1)), number, place);
}

static void tables_refused(void)
{
    struct bytes nothing = { .length = 0 };
    levels_refused("no levels", nothing, 1, 0);
    levels_refused("a count of no levels", table(2, 0, NULL, 0), 2, 0);
    levels_refused("levels damaged", cut(level_pair()), 3, 0);
    levels_refused("equal frequencies", table(2, 2, (const uint32_t[]) { 2, 2, 10, 20 }, 4), 4, 1);
    levels_refused("a falling voltage", table(2, 2, (const uint32_t[]) { 2, 4, 20, 10 }, 4), 5, 1);
    levels_refused("the idle entry alone", table(2, 1, (const uint32_t[]) { 0, 5 }, 2), 31, 0);
    levels_refused("a draw as high as a level", table(2, 2, (const uint32_t[]) { 0, 100, 10, 10 }, 4), 32, 1);
    jobs_refused("no bytes of jobs", nothing, 6, 0);
    jobs_refused("65 jobs", table(4, 65, NULL, 0), 7, 0);
    jobs_refused("jobs damaged", cut(three_jobs()), 8, 0);
    jobs_refused("an empty window", table(4, 3, (const uint32_t[]) { 0, 8, 0, 8, 6, 6, 7, 5, 8 }, 9), 9, 2);
    jobs_refused("a job without cycles", table(4, 3, (const uint32_t[]) { 0, 8, 0, 8, 4, 6, 7, 0, 8 }, 9), 10, 1);
}

/* With a price list that is damaged too, and named only after the plan. */
static void plan_refused(const char *name, struct bytes plan, uint32_t number, uint32_t place)
{
    refused(name, level_pair(), three_jobs(), plan, cut(three_prices(1, 2, 1)), number, place);
}

/* The places are steps of the plan as it was lent. In cell order the faulty ones stand elsewhere. */
static void plans_refused(void)
{
    struct bytes nothing = { .length = 0 }, mixed = mixed_plan(1, 2, 8);
    plan_refused("no bytes of a plan", nothing, 15, 0);
    plan_refused("three bytes of a plan", cut(plan_of(3, 0, NULL)), 15, 0);
    plan_refused("a byte missing", cut(mixed), 15, 0);
    plan_refused("a byte too many", extended(mixed), 15, 0);
    plan_refused("two intervals", plan_of(2, 0, NULL), 16, 0);
    plan_refused("a job before its release", mixed_plan(0, 2, 8), 17, 4);
    plan_refused("no such interval", mixed_plan(3, 2, 8), 17, 4);
    plan_refused("a step twice", plan_of(3, 5, (const uint32_t[][3]) { { 2, 1, 1 }, { 0, 0, 5 }, { 2, 1, 1 }, { 0, 1, 3 }, { 1, 2, 8 } }), 17, 2);
    plan_refused("a step without cycles", mixed_plan(1, 2, 0), 18, 4);
    plan_refused("more than the job's cycles", mixed_plan(1, 2, 9), 18, 4);
    plan_refused("a cycle missing", mixed_plan(1, 2, 7), 19, 2);
    /* 12 cycles in 2 ticks, of which the top has 8. */
    plan_refused("past the top", plan_of(3, 3, (const uint32_t[][3]) { { 2, 1, 5 }, { 2, 0, 7 }, { 1, 2, 8 } }), 20, 2);
}

static void prices_refused(const char *name, struct bytes prices, uint32_t number, uint32_t place)
{
    refused(name, level_pair(), three_jobs(), mixed_plan(1, 2, 8), prices, number, place);
}

static void lists_refused(void)
{
    struct bytes nothing = { .length = 0 };
    prices_refused("no price list", nothing, 21, 0);
    prices_refused("prices damaged", cut(three_prices(1, 2, 1)), 21, 0);
    prices_refused("another end", prices_of(3, (const uint32_t[]) { 4, 7, 8 }, (const uint8_t[]) { 1, 2, 1 }), 22, 1);
    prices_refused("no such band", three_prices(1, 2, 3), 22, 2);
    prices_refused("a price below its load", three_prices(1, 1, 1), 23, 1);
    prices_refused("a cheaper interval later", three_prices(2, 2, 1), 24, 1);
    prices_refused("a cheaper interval earlier", three_prices(1, 2, 2), 24, 0);
}

void order(void)
{
    every_order();
    spellings();
    most_intervals();
    longest_cycles();
    no_jobs();
    short_buffers();
    tables_refused();
    plans_refused();
    lists_refused();
}
