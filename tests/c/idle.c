/* The cases of a level table that begins with an idle entry. */
#include "support.h"

/* An idle entry of this draw before 100 at 10 and 200 at 10, of powers 10,000 and 20,000. Without a draw only 200 works. With
 * draw 9 idling has power 9,000, and both work: gaps 100 and 100, prices 1,000 / 100 = 10 and 10,000 / 100 = 100. */
static struct bytes levels_with(uint32_t draw)
{
    return table(2, 3, (const uint32_t[]) { 0, 100, 200, draw, 10, 10 }, 6);
}

/* The largest draw there is, before the fastest level: powers 65,535,000 and 250,000,000, price 184,465,000 / 1,000. */
static struct bytes largest_draw(void)
{
    return table(2, 2, (const uint32_t[]) { 0, 1000, 65535, 500 }, 4);
}

static struct bytes one_job(uint32_t release, uint32_t deadline, uint32_t cycles)
{
    return table(4, 1, (const uint32_t[]) { release, deadline, cycles }, 3);
}

/* The one plan of one job, in band 1, and its energy by planning and by the check. */
static void one_job_is(const char *name, struct bytes levels, uint32_t release, uint32_t deadline, uint32_t cycles, uint64_t energy)
{
    struct bytes jobs = one_job(release, deadline, cycles);
    struct bytes plan = plan_of(1, 1, (const uint32_t[][3]) { { 0, 0, cycles } });
    struct bytes prices = prices_of(1, (const uint32_t[]) { deadline }, (const uint8_t[]) { 1 });
    struct ramyearly_plan_answer planned = { .intervals = 1, .steps = 1, .energy = energy };
    written_is(name, plan_is(name, levels, jobs, 10, 7, 1, planned), plan, prices, (const uint32_t[]) { cycles }, 1);
    check_is(name, levels, jobs, plan, prices, (struct ramyearly_check_answer) { .energy = energy });
}

static void settings(void)
{
    struct bytes levels = levels_with(9);
    setting_is("load 150 in 2, a draw", levels, 2, 150, (struct ramyearly_setting_answer) { .band = 1, .extra = 150, .gap = 100 });
    setting_is("load 300 in 2, a draw", levels, 2, 300, (struct ramyearly_setting_answer) { .band = 2, .extra = 100, .gap = 100 });
    setting_is("load 401 in 2, a draw", levels, 2, 401, (struct ramyearly_setting_answer) { .number = 26 });
    setting_is("load 0, a draw", levels, 2, 0, (struct ramyearly_setting_answer) { .number = 0 });
    setting_is("load 150 in 2, draw 0", levels_with(0), 2, 150, (struct ramyearly_setting_answer) { .band = 1, .extra = 150, .gap = 200 });
    spare_is("spare with a draw", levels, one_job(0, 2, 150), 0, 3, (struct ramyearly_spare_answer) { .spare = 450 });
    nearest_is("most cycles with a draw", levels, one_job(0, 2, 150), 2, &(struct list) { { 0, 250 }, 2 });
    nearest_is("most cycles with draw 0", levels_with(0), one_job(0, 2, 150), 2, &(struct list) { { 0, 250 }, 2 });
}

static void energies(void)
{
    struct bytes levels = levels_with(9), none = table(4, 0, NULL, 0);
    /* 150 x 10 + 2 x 9,000. That is 150 / 100 ticks at 10,000 and half a tick at 9,000. */
    one_job_is("a job and idling", levels, 0, 2, 150, 19500);
    one_job_is("nothing is paid before the earliest release", levels, 3, 5, 150, 19500);
    /* Only 200 works, at price 20,000 / 200. */
    one_job_is("a job and free idling", levels_with(0), 0, 2, 150, 15000);
    /* 3 at 20 has power 1,200, and price 200 / 3: one cycle rounded down, and 4 x 1,000. */
    one_job_is("a cycle rounded down", table(2, 2, (const uint32_t[]) { 0, 3, 1, 20 }, 4), 0, 4, 1, 4066);
    /* 1 x 184,465 + 1,000,000 x 65,535,000; and all of the time at 250,000,000. */
    one_job_is("the longest idling", largest_draw(), 0, 1000000, 1, 65535000184465);
    one_job_is("no idling", largest_draw(), 0, 1000000, 1000000000, 250000000000000);
    plan_is("no jobs and a draw", levels, none, 4, 2, 0, (struct ramyearly_plan_answer) { .number = 0 });
}

/* Jobs 0 2 150 and, where the round of 5 ticks comes again, 5 7 150. In between 3 ticks idle: 2 x 19,500 + 3 x 9,000. */
static void repeats(void)
{
    struct bytes levels = levels_with(9), tasks = table(4, 1, (const uint32_t[]) { 0, 5, 2, 150 }, 4), job = one_job(0, 2, 150);
    struct bytes jobs = table(4, 2, (const uint32_t[]) { 0, 2, 5, 7, 150, 150 }, 6);
    struct bytes plan = plan_of(3, 2, (const uint32_t[][3]) { { 0, 0, 150 }, { 2, 1, 150 } });
    struct bytes prices = prices_of(3, (const uint32_t[]) { 2, 5, 7 }, (const uint8_t[]) { 1, 1, 1 });
    struct ramyearly_plan_answer planned = { .intervals = 3, .steps = 2, .energy = 66000 };
    rounds_is("a round", tasks, 14, (struct ramyearly_rounds_answer) { .length = 14, .multiple = 5 }, job);
    written_is("two rounds' plan", plan_is("two rounds", levels, jobs, 16, 17, 6, planned), plan, prices,
        (const uint32_t[]) { 150, 0, 0, 0, 0, 150 }, 6);
    check_is("two rounds' plan checked", levels, jobs, plan, prices, (struct ramyearly_check_answer) { .energy = 66000 });
}

/* By each function that reads levels. The jobs are damaged too, and named only after the levels. */
static void levels_refused(const char *name, struct bytes levels, uint32_t number, uint32_t place)
{
    struct bytes jobs = cut(one_job(0, 2, 150)), none = { .length = 0 };
    setting_is(name, levels, 0, 1, (struct ramyearly_setting_answer) { .number = number, .place = place });
    spare_is(name, levels, jobs, 2, 2, (struct ramyearly_spare_answer) { .number = number, .place = place });
    fits_is(name, levels, jobs, none, (struct ramyearly_fits_answer) { .number = number, .place = place });
    check_is(name, levels, jobs, none, none, (struct ramyearly_check_answer) { .number = number, .place = place });
    plan_is(name, levels, jobs, 0, 0, 0, (struct ramyearly_plan_answer) { .number = number, .place = place });
    nearest_refused(name, levels, jobs, 0, (struct ramyearly_nearest_answer) { .number = number, .place = place });
    order_refused(name, levels, jobs, none, none, 0, number, place);
}

/* An idle entry of this draw, and one level after it. */
static void level_refused(const char *name, uint32_t draw, uint32_t frequency, uint32_t voltage, uint32_t number)
{
    levels_refused(name, table(2, 2, (const uint32_t[]) { 0, frequency, draw, voltage }, 4), number, 1);
}

static void refusals(void)
{
    /* All levels at 1, from frequency 1 on: 8 entries with the idle one, and 9. Idling is free, so only the top works, at price 1. */
    const uint32_t eight[16] = { 0, 1, 2, 3, 4, 5, 6, 7, 0, 1, 1, 1, 1, 1, 1, 1 };
    const uint32_t nine[18] = { 0, 1, 2, 3, 4, 5, 6, 7, 8, 0, 1, 1, 1, 1, 1, 1, 1, 1 };
    setting_is("eight entries", table(2, 8, eight, 16), 1, 5, (struct ramyearly_setting_answer) { .band = 1, .extra = 5, .gap = 7 });
    one_job_is("a job and eight entries", table(2, 8, eight, 16), 0, 1, 5, 5);
    levels_refused("nine entries", table(2, 9, nine, 18), 2, 0);
    levels_refused("the idle entry alone", table(2, 1, (const uint32_t[]) { 0, 9 }, 2), 31, 0);
    levels_refused("alone and free", table(2, 1, (const uint32_t[]) { 0, 0 }, 2), 31, 0);
    levels_refused("alone and cut", cut(table(2, 1, (const uint32_t[]) { 0, 9 }, 2)), 3, 0);
    /* 10 x 1,000 is the first level's power; it is named before the level after it, which does not rise. */
    levels_refused("a draw as high as a level", levels_with(10), 32, 1);
    levels_refused("a draw and equal frequencies", table(2, 3, (const uint32_t[]) { 0, 100, 100, 10, 10, 10 }, 6), 32, 1);
    levels_refused("equal frequencies", table(2, 3, (const uint32_t[]) { 0, 100, 100, 9, 10, 10 }, 6), 4, 2);
    levels_refused("a falling voltage", table(2, 3, (const uint32_t[]) { 0, 100, 200, 9, 10, 9 }, 6), 5, 2);
    levels_refused("two idle entries", table(2, 3, (const uint32_t[]) { 0, 0, 200, 9, 10, 10 }, 6), 4, 1);
    levels_refused("the idle entry last", table(2, 2, (const uint32_t[]) { 100, 0, 10, 10 }, 4), 4, 1);
    level_refused("a draw and a frequency past the limit", 65535, 1001, 10, 4);
    level_refused("a draw and no voltage", 65535, 100, 0, 5);
    level_refused("a draw above a slow level", 1, 1, 1, 32);
    /* 250 x 500 x 500 is 62,500,000. */
    level_refused("the largest draw", 65535, 250, 500, 32);
    level_refused("a draw of a fast level", 62500, 250, 500, 32);
}

void idle(void)
{
    settings();
    energies();
    repeats();
    refusals();
}
