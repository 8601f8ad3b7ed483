/* Short plans: a plan has at most jobs + intervals - 1 steps, and 12 wants a plan buffer for the smaller of that number and the open pairs. */
#include "support.h"

enum { JOBS = 64, INTERVALS = 135, STEPS = JOBS + INTERVALS - 1 };

/* The length of a plan buffer that is wanted: just enough, and at each shorter length here refused with that length as its place. */
static void wanted_is(const char *name, struct bytes jobs, struct bytes marks, size_t wanted, struct ramyearly_plan_answer planned)
{
    const size_t shorter[] = { 0, 1, 3, wanted - 1 };
    plan_marked_is(name, level_pair(), jobs, marks, wanted, 100, 100, planned);
    plan_marked_is(name, level_pair(), jobs, marks, wanted + 1, 100, 100, planned);
    for (unsigned i = 0; i < sizeof shorter / sizeof *shorter; i++)
        plan_marked_is(name, level_pair(), jobs, marks, shorter[i], 100, 100,
            (struct ramyearly_plan_answer) { .number = 12, .place = (uint32_t)wanted });
}

/* Under T, a cycle in band 1 costs 100. */
static void wanted_lengths(void)
{
    struct bytes none = marks_at("");
    wanted_is("no jobs", table(4, 0, NULL, 0), none, 4, (struct ramyearly_plan_answer) { .number = 0 });
    wanted_is("no jobs, and marks", table(4, 0, NULL, 0), marks_at("1 2 3"), 4, (struct ramyearly_plan_answer) { .number = 0 });
    /* 1 job, 1 interval, 1 pair. */
    wanted_is("one job", table(4, 1, (const uint32_t[]) { 0, 5, 1 }, 3), none, 4 + 6,
        (struct ramyearly_plan_answer) { .intervals = 1, .steps = 1, .energy = 100 });
    /* One interval: 3 jobs, and as many pairs as jobs + intervals - 1. */
    wanted_is("three jobs in one interval", table(4, 3, (const uint32_t[]) { 0, 5, 0, 5, 0, 5, 1, 2, 3 }, 9), none, 4 + 6 * 3,
        (struct ramyearly_plan_answer) { .intervals = 1, .steps = 3, .energy = 600 });
    /* Two jobs apart: 3 intervals, so that jobs + intervals - 1 is 4, but 2 pairs. */
    wanted_is("two jobs apart", table(4, 2, (const uint32_t[]) { 0, 1, 5, 6, 1, 2 }, 6), none, 4 + 6 * 2,
        (struct ramyearly_plan_answer) { .intervals = 3, .steps = 2, .energy = 300 });
    /* A mark between them makes 4 intervals and no pair. */
    wanted_is("two jobs and a mark between", table(4, 2, (const uint32_t[]) { 0, 1, 5, 6, 1, 2 }, 6), marks_at("3"), 4 + 6 * 2,
        (struct ramyearly_plan_answer) { .intervals = 4, .steps = 2, .energy = 300 });
    /* Jobs 0 4 6 and 2 3 4: 3 intervals, and 4 of both numbers. 2 cycles are in band 2, at 700. */
    wanted_is("as many pairs", table(4, 2, (const uint32_t[]) { 0, 4, 2, 3, 6, 4 }, 6), none, 4 + 6 * 4,
        (struct ramyearly_plan_answer) { .intervals = 3, .steps = 3, .energy = 2200 });
    /* Jobs 0 5 6, 1 4 3 and 2 3 1: 5 intervals and 5 + 3 + 1 pairs, but jobs + intervals - 1 is 7. All 10 cycles fill band 1 everywhere. */
    wanted_is("more pairs", table(4, 3, (const uint32_t[]) { 0, 5, 1, 4, 2, 3, 6, 3, 1 }, 9), none, 4 + 6 * 7,
        (struct ramyearly_plan_answer) { .intervals = 5, .steps = 6, .energy = 1000 });
}

/* Jobs 0 2 and 1 3, a cycle each: 3 intervals, and 4 of both numbers. With a tick free they are 0 1 and 1 2: 2 intervals, 2 pairs. */
static void wanted_of_altered_jobs(void)
{
    struct bytes t = level_pair(), none = marks_at(""), jobs = table(4, 2, (const uint32_t[]) { 0, 2, 1, 3, 1, 1 }, 6);
    const struct parameters a_tick = { 2, 1, 0 };
    plan_marked_is("no tick free", t, jobs, none, 27, 100, 100, (struct ramyearly_plan_answer) { .number = 12, .place = 28 });
    plan_altered_is("a tick free", t, jobs, none, a_tick, 16, 100, 100, (struct ramyearly_plan_answer) { .intervals = 2, .steps = 2, .energy = 200 });
    plan_altered_is("a tick free, a byte less", t, jobs, none, a_tick, 15, 100, 100, (struct ramyearly_plan_answer) { .number = 12, .place = 16 });
}

/* Six jobs with 34 pairs in 9 intervals. Under the second built-in table all cycles are 350 in each of 300 ticks, and every least plan has
 * these loads: 90,000 cycles in band 1 at 19,600, and 15,000 in band 2 at (350 x 150 x 150 - 300 x 140 x 140) / 50 = 39,900. A plan of
 * 6 + 9 - 1 steps is written: interval by interval each job gets all that it may, by number. */
static void many_least_plans(void)
{
    struct bytes levels = table(2, 5, (const uint32_t[]) { 300, 350, 400, 450, 500, 140, 150, 160, 170, 180 }, 10);
    struct bytes jobs = table(4, 6,
        (const uint32_t[]) { 0, 180, 90, 270, 60, 240, 30, 300, 0, 150, 120, 300, 18000, 25500, 16500, 24500, 14500, 6000 }, 18);
    static const uint32_t steps[14][3] = { { 0, 0, 10500 }, { 1, 0, 7500 }, { 1, 3, 3000 }, { 2, 2, 10500 }, { 3, 1, 6500 }, { 3, 4, 4000 },
        { 4, 4, 10500 }, { 5, 1, 10500 }, { 6, 1, 8500 }, { 6, 2, 6000 }, { 6, 3, 6500 }, { 7, 3, 10500 }, { 8, 3, 4500 }, { 8, 5, 6000 } };
    struct bytes prices = prices_of(9, (const uint32_t[]) { 30, 60, 90, 120, 150, 180, 240, 270, 300 },
        (const uint8_t[]) { 2, 2, 2, 2, 2, 2, 2, 2, 2 });
    struct ramyearly_plan_answer planned = { .intervals = 9, .steps = 14, .energy = 2362500000 };
    uint32_t shares[54] = { 0 };
    for (unsigned s = 0; s < 14; s++)
        shares[steps[s][0] * 6 + steps[s][1]] = steps[s][2];
    struct lent written = plan_is("many least plans", levels, jobs, 4 + 6 * 14, 2 + 5 * 9, 54, planned);
    written_is("the one of many least plans", written, plan_of(9, 14, steps), prices, shares, 54);
    check_is("the one of many least plans", levels, jobs, plan_of(9, 14, steps), prices,
        (struct ramyearly_check_answer) { .energy = planned.energy });
    plan_is("many least plans, a byte less", levels, jobs, 4 + 6 * 14 - 1, 2 + 5 * 9, 54,
        (struct ramyearly_plan_answer) { .number = 12, .place = 4 + 6 * 14 });
    plan_is("many least plans, room for all pairs", levels, jobs, 4 + 6 * 34, 2 + 5 * 9, 54, planned);
}

/* As many jobs, intervals and pairs as there can be: job j from tick j up to tick 72 + j, and marks at 64 to 71, so that every interval is a
 * tick. 64 jobs of 135 cycles are 64 cycles in each of 135 ticks, which is all that the one level gives. The jobs run one after another by
 * number. A step ends with a tick, at a multiple of 64 cycles, or with a job, at a multiple of 135; none is both before the last. */
struct most {
    unsigned count;
    uint32_t steps[STEPS][3], shares[JOBS * INTERVALS];
};

static struct bytes most_jobs(void)
{
    uint32_t numbers[3 * JOBS];
    for (uint32_t j = 0; j < JOBS; j++) {
        numbers[2 * j] = j;
        numbers[2 * j + 1] = 72 + j;
        numbers[2 * JOBS + j] = 135;
    }
    return table(4, JOBS, numbers, 3 * JOBS);
}

static struct most one_after_another(void)
{
    struct most most = { .count = 0 };
    for (uint32_t done = 0, next; done < 64 * INTERVALS && most.count < STEPS; done = next) {
        uint32_t tick = done / 64, job = done / 135, tick_end = 64 * (tick + 1), job_end = 135 * (job + 1), *step = most.steps[most.count++];
        next = tick_end < job_end ? tick_end : job_end;
        step[0] = tick;
        step[1] = job;
        step[2] = most.shares[tick * JOBS + job] = next - done;
    }
    return most;
}

static struct bytes most_prices(void)
{
    uint32_t ends[INTERVALS];
    uint8_t prices[INTERVALS];
    for (uint32_t i = 0; i < INTERVALS; i++) {
        ends[i] = i + 1;
        prices[i] = 1;
    }
    return prices_of(INTERVALS, ends, prices);
}

/* The level's power is 64 x 10 x 10, in 135 ticks. */
static void most_steps(void)
{
    struct bytes level = table(2, 1, (const uint32_t[]) { 64, 10 }, 2), jobs = most_jobs(), marks = marks_at("64 65 66 67 68 69 70 71");
    struct most most = one_after_another();
    struct bytes plan = plan_of(INTERVALS, most.count, (const uint32_t(*)[3])most.steps), prices = most_prices();
    struct ramyearly_plan_answer planned = { .intervals = INTERVALS, .steps = STEPS, .energy = 864000 };
    written_is("the plan with the most steps", plan_marked_is("the most steps", level, jobs, marks, 1192, 677, 8640, planned), plan, prices,
        most.shares, JOBS * INTERVALS);
    plan_marked_is("the most steps, a byte less", level, jobs, marks, 1191, 677, 8640,
        (struct ramyearly_plan_answer) { .number = 12, .place = 1192 });
    check_marked_is("the most steps", level, jobs, marks, plan, prices, (struct ramyearly_check_answer) { .energy = 864000 });
}

void short_plans(void)
{
    wanted_lengths();
    wanted_of_altered_jobs();
    many_least_plans();
    most_steps();
}
