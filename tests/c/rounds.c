/* The cases of laying out tasks. */
#include "support.h"

/* Two tasks of phase, period, deadline and cycles. */
static struct bytes two_tasks(const uint32_t first[4], const uint32_t second[4])
{
    return table(4, 2, (const uint32_t[]) { first[0], first[1], second[0], second[1], first[2], first[3], second[2], second[3] }, 8);
}

/* That many tasks of phase 0, deadline 1 and one cycle; their periods are these n, and after the last the same again. */
static struct bytes short_tasks(unsigned count, const uint32_t *periods, unsigned n)
{
    uint32_t numbers[4 * 17];
    for (unsigned i = 0; i < count; i++) {
        numbers[2 * i] = 0;
        numbers[2 * i + 1] = periods[i % n];
        numbers[2 * count + 2 * i] = numbers[2 * count + 2 * i + 1] = 1;
    }
    return table(4, count, numbers, 4 * count);
}

/* Phase 2, period 4, deadline 2, 3 cycles; and phase 0, period 6, deadline 2, 4 cycles. The first ends with its period. */
static const uint32_t FIRST[4] = { 2, 4, 2, 3 }, SECOND[4] = { 0, 6, 2, 4 };

/* In 12 ticks the first task releases jobs at 2, 6 and 10 and the second at 0 and 6, where the first task's stands first. */
static struct bytes round_jobs(void)
{
    return table(4, 5, (const uint32_t[]) { 0, 2, 2, 4, 6, 8, 6, 8, 10, 12, 4, 3, 3, 4, 3 }, 15);
}

/* Bounds 0, 2, .. 12. Each job is open in one interval only, so there is one plan. Under T the loads are 4, 3, 0, 7, 0 and 3: in
 * 2 ticks band 1 takes 4 cycles, and band 2 the 3 above them: 14 x 100 + 3 x 700. */
static void planned_round(struct bytes jobs)
{
    struct bytes t = level_pair();
    struct bytes plan = plan_of(6, 5, (const uint32_t[][3]) { { 0, 0, 4 }, { 1, 1, 3 }, { 3, 2, 3 }, { 3, 3, 4 }, { 5, 4, 3 } });
    struct bytes prices = prices_of(6, (const uint32_t[]) { 2, 4, 6, 8, 10, 12 }, (const uint8_t[]) { 1, 1, 1, 2, 1, 1 });
    const uint32_t shares[30] = { [0] = 4, [6] = 3, [17] = 3, [18] = 4, [29] = 3 };
    struct ramyearly_plan_answer planned = { .intervals = 6, .steps = 5, .energy = 3500 };
    written_is("the round's plan", plan_is("the round", t, jobs, 34, 32, 30, planned), plan, prices, shares, 30);
    check_is("the round's plan checked", t, jobs, plan, prices, (struct ramyearly_check_answer) { .energy = 3500 });
}

void rounds(void)
{
    struct bytes two = two_tasks(FIRST, SECOND), longer = two, many = two, none = table(4, 0, NULL, 0);
    struct ramyearly_rounds_answer answer = { .length = 62, .multiple = 12 };
    planned_round(rounds_is("two tasks", two, 100, answer, round_jobs()));
    rounds_is("just long enough", two, 62, answer, round_jobs());
    rounds_refused("job buffer too short", two, 61, 12, 62);
    rounds_is("no tasks", none, 2, (struct ramyearly_rounds_answer) { .length = 2, .multiple = 1 }, none);
    rounds_refused("no tasks and a short buffer", none, 1, 12, 2);
    rounds_refused("no bytes", (struct bytes) { .length = 0 }, 100, 28, 0);
    rounds_refused("one byte", cut(none), 100, 28, 0);
    rounds_refused("a byte missing", cut(two), 100, 28, 0);
    longer.length++;
    rounds_refused("a byte too many", longer, 100, 28, 0);
    many.at[1] = 1;
    rounds_refused("a count of 258", many, 100, 28, 0);
    /* 16 jobs 0 1 1; as many tasks as are allowed. */
    uint32_t numbers[48];
    for (unsigned i = 0; i < 48; i++)
        numbers[i] = i % 2 || i >= 32;
    rounds_is("sixteen tasks", short_tasks(16, (const uint32_t[]) { 1 }, 1), 194, (struct ramyearly_rounds_answer) { .length = 194, .multiple = 1 },
        table(4, 16, numbers, 48));
    rounds_refused("seventeen tasks", short_tasks(17, (const uint32_t[]) { 1 }, 1), 1000, 28, 0);
    rounds_refused("no period", two_tasks(FIRST, (const uint32_t[]) { 0, 0, 0, 4 }), 100, 28, 1);
    rounds_refused("no deadline", two_tasks(FIRST, (const uint32_t[]) { 0, 6, 0, 4 }), 100, 28, 1);
    rounds_refused("a tick past the period", two_tasks(FIRST, (const uint32_t[]) { 5, 6, 2, 4 }), 100, 28, 1);
    /* The sum is 1 in 32 bits. */
    rounds_refused("far past the period", two_tasks(FIRST, (const uint32_t[]) { 4294967295, 6, 2, 4 }), 100, 28, 1);
    rounds_refused("no cycles", two_tasks(FIRST, (const uint32_t[]) { 0, 6, 2, 0 }), 100, 28, 1);
    rounds_refused("too many cycles", two_tasks((const uint32_t[]) { 2, 4, 2, 1000000001 }, SECOND), 100, 28, 0);
    rounds_is("the latest job", table(4, 1, (const uint32_t[]) { 999999, 1000000, 1, 1000000000 }, 4), 14,
        (struct ramyearly_rounds_answer) { .length = 14, .multiple = 1000000 }, table(4, 1, (const uint32_t[]) { 999999, 1000000, 1000000000 }, 3));
    rounds_refused("a period past the limit", short_tasks(1, (const uint32_t[]) { 1000001 }, 1), 100, 29, 0);
    /* 999 x 1,001 is 999,999, of 2,000 jobs; 1,000 x 1,001 is past the limit. 65,536 x 65,537 is 65,536 in 32 bits. The last three
     * have no common divisor, and their product is 121 in 64 bits. */
    rounds_refused("a multiple in the limit", short_tasks(2, (const uint32_t[]) { 999, 1001 }, 2), 100, 30, 0);
    rounds_refused("a multiple past the limit", short_tasks(2, (const uint32_t[]) { 1000, 1001 }, 2), 100, 29, 0);
    rounds_refused("a multiple past 32 bits", short_tasks(2, (const uint32_t[]) { 65536, 65537 }, 2), 100, 29, 0);
    rounds_refused("a multiple past 64 bits", short_tasks(3, (const uint32_t[]) { 4294967293, 4294967263, 1908874355 }, 3), 100, 29, 0);
    rounds_refused("64 jobs and a short buffer", short_tasks(2, (const uint32_t[]) { 1, 63 }, 2), 769, 12, 770);
    rounds_refused("65 jobs", short_tasks(2, (const uint32_t[]) { 1, 64 }, 2), 1000, 30, 0);
    rounds_refused("65 jobs and a short buffer", short_tasks(2, (const uint32_t[]) { 1, 64 }, 2), 100, 30, 0);
}
