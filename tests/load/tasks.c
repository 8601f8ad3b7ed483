#include "tasks.h"

static void add_period(struct paper_tasks *tasks, uint64_t period)
{
    if (tasks->count < PAPER_TASKS)
        tasks->period[tasks->count++] = (uint32_t)period;
}

/* Each period goes into one round a whole number of times. With the round itself as the last period it is the multiple, and
 * those numbers add up to the jobs: often just as many as are allowed, or one more. */
static void parts_of_round(struct numbers *numbers, struct paper_tasks *tasks)
{
    uint64_t round = ONE_OF(numbers, 1, 12, 60, 840, 5040, 65536, 720720, 999999, PAPER_TIME, 1000001, 1000002);
    uint64_t left = one_in(numbers, 2) ? between(numbers, 1, 66) : ONE_OF(numbers, 63, 64, 65), whole = !one_in(numbers, 4);
    while (left > whole && tasks->count < PAPER_TASKS - whole) {
        uint64_t parts = between(numbers, 1, left - whole);
        while (round % parts != 0)
            parts--;
        add_period(tasks, round / parts);
        left -= parts;
    }
    if (whole)
        add_period(tasks, round);
}

static void short_periods(struct numbers *numbers, struct paper_tasks *tasks)
{
    for (uint64_t count = between(numbers, 1, 5), most = ONE_OF(numbers, 4, 12, 30); count > 0; count--)
        add_period(tasks, between(numbers, 1, most));
}

/* Multiples at 1,000,000, below it and above it, of few jobs and of many. Some products come out small in 32 or 64 bits:
 * 65,536 x 65,537 is 65,536 in 32; of the last three, two have the product 99 in 32, and all of them 121 in 64. */
static void periods_at_limit(struct numbers *numbers, struct paper_tasks *tasks)
{
    static const uint32_t sets[][3] = {
        { 62500, 200000 }, { 15625, PAPER_TIME }, { 15625, 64 }, { 15625, 128 }, { 111111, 142857 }, { 999, 1001 }, { 1000, 1001 },
        { 333334, 500001 }, { 500001, 1000002 }, { PAPER_TIME, 1000001 }, { 999999, PAPER_TIME }, { 65536, 65537 },
        { 4294967293, 4294967263, 1908874355 },
    };
    const uint32_t *set = sets[below(numbers, sizeof sets / sizeof *sets)];
    for (unsigned i = 0; i < 3 && set[i] > 0; i++)
        add_period(tasks, set[i]);
}

/* Three of them may have a product past 64 bits. */
static void wide_periods(struct numbers *numbers, struct paper_tasks *tasks)
{
    for (uint64_t count = between(numbers, 1, PAPER_TASKS); count > 0; count--)
        add_period(tasks, one_in(numbers, 2) ? between(numbers, 1, UINT32_MAX)
                                             : ONE_OF(numbers, 1, 1000, PAPER_TIME, 1u << 31, UINT32_MAX, UINT32_MAX - 1));
}

static void swap_periods(struct paper_tasks *tasks, uint64_t a, uint64_t b)
{
    uint32_t period = tasks->period[a];
    tasks->period[a] = tasks->period[b];
    tasks->period[b] = period;
}

static void set_periods(struct numbers *numbers, struct paper_tasks *tasks)
{
    switch (below(numbers, 8)) {
    case 0:
        wide_periods(numbers, tasks);
        break;
    case 1:
        periods_at_limit(numbers, tasks);
        break;
    case 2:
    case 3:
        short_periods(numbers, tasks);
        break;
    default:
        parts_of_round(numbers, tasks);
    }
    swap_periods(tasks, 0, below(numbers, tasks->count));
}

/* From the first tick of the period or later, up to its end or less. */
static void set_window(struct numbers *numbers, struct paper_tasks *tasks, unsigned i)
{
    uint64_t period = tasks->period[i], deadline = ONE_OF(numbers, 1, period, between(numbers, 1, period), between(numbers, 1, period));
    tasks->deadline[i] = (uint32_t)deadline;
    tasks->phase[i] = (uint32_t)ONE_OF(numbers, 0, period - deadline, between(numbers, 0, period - deadline));
}

/* Each task gets up to an equal share of what the top frequency does up to its deadline; then all jobs can be served. */
static void set_cycles(struct numbers *numbers, const struct paper_levels *levels, struct paper_tasks *tasks, unsigned i)
{
    uint64_t share = (uint64_t)tasks->deadline[i] * paper_top(levels) / tasks->count;
    uint64_t most = share < 1 ? 1 : share > PAPER_CYCLES ? PAPER_CYCLES : share;
    if (one_in(numbers, 16))
        most = PAPER_CYCLES;
    tasks->cycles[i] = (uint32_t)(one_in(numbers, 4) ? most : between(numbers, 1, most));
}

struct paper_tasks any_tasks(struct numbers *numbers, const struct paper_levels *levels)
{
    struct paper_tasks tasks = { .count = 0 };
    if (one_in(numbers, 32))
        return tasks;
    set_periods(numbers, &tasks);
    for (unsigned i = 0; i < tasks.count; i++) {
        set_window(numbers, &tasks, i);
        set_cycles(numbers, levels, &tasks, i);
    }
    return tasks;
}
