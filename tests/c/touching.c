/* The cases of what touches a span. */
#include "support.h"

static const struct room NONE = { 0, 0, 0 }, LONG = { 100, 100, 100 };

/* Jobs 2 9 7, 4 6 5, 6 12 8 and 15 20 3. Bounds 2, 4, 6, 9, 12, 15 and 20; in the interval from 12 to 15 no job is open. */
static struct bytes four_jobs(void)
{
    return table(4, 4, (const uint32_t[]) { 2, 9, 4, 6, 6, 12, 15, 20, 7, 5, 8, 3 }, 12);
}

/* Its steps are out of order, and their cells are
 *     0      job 0 from 2 to 4
 *     65     job 1 from 4 to 6
 *     128    job 0 from 6 to 9
 *     130    job 2 from 6 to 9
 *     194    job 2 from 9 to 12
 *     323    job 3 from 15 to 20
 * Job 0 has 5 of its 7 cycles, which the check would refuse by 19. The last step has its interval, job and cycles as given. */
static struct bytes plan_with(uint32_t interval, uint32_t job, uint32_t cycles)
{
    return plan_of(6, 6, (const uint32_t[][3]) { { 2, 2, 5 }, { 5, 3, 3 }, { 0, 0, 4 }, { 3, 2, 3 }, { 1, 1, 5 }, { interval, job, cycles } });
}

static struct bytes mixed_plan(void)
{
    return plan_with(2, 0, 1);
}

static struct room just_enough(const struct touched *wanted)
{
    return (struct room) { wanted->open.length, wanted->inside.length, wanted->steps.length };
}

/* The first list that is too short is named, whether or not those after it are long enough. */
static void one_short(const char *name, struct bytes jobs, struct bytes plan, uint32_t start, uint32_t end, const struct touched *wanted)
{
    struct room exact = just_enough(wanted), room = exact;
    if (exact.steps > 0) {
        room.steps = exact.steps - 1;
        touching_refused(name, jobs, plan, start, end, room, 14, (uint32_t)exact.steps);
        touching_refused(name, jobs, plan, start, end, (struct room) { LONG.open, LONG.inside, room.steps }, 14, (uint32_t)exact.steps);
    }
    if (exact.inside > 0) {
        room.inside = exact.inside - 1;
        touching_refused(name, jobs, plan, start, end, room, 14, (uint32_t)exact.inside);
        touching_refused(name, jobs, plan, start, end, (struct room) { LONG.open, room.inside, LONG.steps }, 14, (uint32_t)exact.inside);
    }
    if (exact.open > 0) {
        room.open = exact.open - 1;
        touching_refused(name, jobs, plan, start, end, room, 14, (uint32_t)exact.open);
        touching_refused(name, jobs, plan, start, end, (struct room) { room.open, LONG.inside, LONG.steps }, 14, (uint32_t)exact.open);
        touching_refused(name, jobs, plan, start, end, NONE, 14, (uint32_t)exact.open);
    }
}

/* Into lists that are just long enough, longer ones, and each of them one number short. */
static void touched_is(const char *name, struct bytes jobs, struct bytes plan, uint32_t start, uint32_t end, const struct touched *wanted)
{
    struct room exact = just_enough(wanted);
    touching_is(name, jobs, plan, start, end, exact, wanted);
    touching_is(name, jobs, plan, start, end, (struct room) { exact.open + 1, exact.inside + 2, exact.steps + 3 }, wanted);
    touching_is(name, jobs, plan, start, end, LONG, wanted);
    one_short(name, jobs, plan, start, end, wanted);
}

/* The jobs open, the jobs inside and the steps of the four jobs' plan; deadline 0 is none. */
static void span_is(const char *name, uint32_t start, uint32_t end, const char *open, const char *inside, const char *steps, uint32_t deadline)
{
    struct touched wanted = { list_of(open), list_of(inside), list_of(steps), deadline };
    touched_is(name, four_jobs(), mixed_plan(), start, end, &wanted);
}

static void spans(void)
{
    span_is("an interval", 4, 6, "0 1", "1", "65", 6);
    span_is("parts of two intervals and all of one", 3, 7, "0 1 2", "1", "0 65 128 130", 6);
    span_is("three intervals that are cut", 8, 16, "0 2 3", "", "128 130 194 323", 9);
    span_is("one tick", 5, 6, "0 1", "", "65", 6);
    span_is("the window of a job", 6, 12, "0 2", "2", "128 130 194", 6);
    span_is("a tick less at its start", 7, 12, "0 2", "", "128 130 194", 9);
    span_is("a tick less at its end", 6, 11, "0 2", "", "128 130 194", 6);
    span_is("all windows", 2, 20, "0 1 2 3", "0 1 2 3", "0 65 128 130 194 323", 6);
    span_is("a tick after the first release", 3, 20, "0 1 2 3", "1 2 3", "0 65 128 130 194 323", 6);
    span_is("a tick before the last deadline", 2, 19, "0 1 2 3", "0 1 2", "0 65 128 130 194 323", 6);
    span_is("all ticks", 0, 1000000, "0 1 2 3", "0 1 2 3", "0 65 128 130 194 323", 6);
}

static void ends_of_spans(void)
{
    span_is("up to the first release", 0, 2, "", "", "", 6);
    span_is("past the first release", 0, 3, "0", "", "0", 6);
    span_is("from a deadline to a release", 9, 15, "2", "", "194", 9);
    span_is("a tick past a deadline", 10, 15, "2", "", "194", 12);
    span_is("a tick past a release", 10, 16, "2 3", "", "194 323", 12);
    span_is("from one job's deadline, another's release", 6, 7, "0 2", "", "128 130", 6);
    span_is("where no job is open", 12, 15, "", "", "", 12);
    span_is("the nearest deadline after the span", 13, 14, "", "", "", 20);
    span_is("the last tick of the last job", 19, 20, "3", "", "323", 20);
    span_is("from the last deadline", 20, 21, "", "", "", 20);
    span_is("past the last deadline", 21, 22, "", "", "", 0);
    span_is("the latest span", 999999, 1000000, "", "", "", 0);
}

/* A job 999999 1000000 1: the latest there is. */
static void latest_job(void)
{
    struct bytes jobs = table(4, 1, (const uint32_t[]) { 999999, 1000000, 1 }, 3), plan = plan_of(1, 1, (const uint32_t[][3]) { { 0, 0, 1 } });
    struct touched all = { list_of("0"), list_of("0"), list_of("0"), 1000000 }, none = { .deadline = 1000000 };
    touched_is("the latest job", jobs, plan, 999999, 1000000, &all);
    touched_is("all ticks and the latest job", jobs, plan, 0, 1000000, &all);
    touched_is("up to the latest job", jobs, plan, 0, 999999, &none);
}

/* Job j is 5 9 (j + 1). All are open in the one interval, and the steps stand last job first. */
static void equal_jobs(void)
{
    uint32_t numbers[3 * 64], steps[64][3];
    struct touched all = { .deadline = 9 }, none = { .deadline = 9 };
    all.open.length = all.inside.length = all.steps.length = 64;
    for (uint32_t j = 0; j < 64; j++) {
        numbers[2 * j] = 5;
        numbers[2 * j + 1] = 9;
        steps[63 - j][0] = 0;
        steps[63 - j][1] = all.open.at[j] = all.inside.at[j] = all.steps.at[j] = j;
        steps[63 - j][2] = numbers[128 + j] = j + 1;
    }
    struct bytes jobs = table(4, 64, numbers, 3 * 64), plan = plan_of(1, 64, (const uint32_t(*)[3])steps);
    touched_is("64 jobs in one window", jobs, plan, 5, 9, &all);
    all.inside.length = 0;
    touched_is("64 jobs open", jobs, plan, 8, 9, &all);
    touched_is("before 64 jobs", jobs, plan, 0, 5, &none);
}

/* 64 jobs apart, the last first: job j from 33 x (63 - j) on for 32 ticks. Interval 2 x k is its window for k = 63 - j, and the
 * interval after it is one tick long. So cells rise as jobs fall, up to 126 x 64. */
static void most_intervals(void)
{
    uint32_t numbers[3 * 64], steps[64][3];
    struct touched all = { .deadline = 32 }, middle = { .deadline = 33 * 20 + 32 };
    all.open.length = all.inside.length = all.steps.length = 64;
    for (uint32_t j = 0; j < 64; j++) {
        numbers[2 * j] = 33 * (63 - j);
        numbers[2 * j + 1] = 33 * (63 - j) + 32;
        numbers[128 + j] = 1;
        steps[j][0] = 2 * (63 - j);
        steps[j][1] = all.open.at[j] = all.inside.at[j] = j;
        steps[j][2] = 1;
        all.steps.at[63 - j] = 2 * (63 - j) * 64 + j;
    }
    struct bytes jobs = table(4, 64, numbers, 3 * 64), plan = plan_of(127, 64, (const uint32_t(*)[3])steps);
    touched_is("64 jobs apart", jobs, plan, 0, 33 * 64, &all);
    /* From inside the window of k = 20 to inside that of 22: jobs 41 to 43, of which 42 is inside. */
    middle.open = list_of("41 42 43");
    middle.inside = list_of("42");
    middle.steps = list_of("2603 2730 2857");
    touched_is("three of 64 jobs", jobs, plan, 33 * 20 + 31, 33 * 22 + 1, &middle);
}

/* No levels are lent: neither a job's sum nor an interval's load is looked at. */
static void sums_and_loads(void)
{
    struct bytes jobs = four_jobs(), too_many = table(4, 1, (const uint32_t[]) { 0, 1, 1000000000 }, 3);
    struct touched no_steps = { list_of("0 1 2"), list_of("1"), list_of(""), 6 }, one = { list_of("0"), list_of("0"), list_of("0"), 1 };
    touched_is("a plan without steps", jobs, plan_of(6, 0, NULL), 3, 7, &no_steps);
    touched_is("more cycles than any level has", too_many, plan_of(1, 1, (const uint32_t[][3]) { { 0, 0, 1000000000 } }), 0, 1, &one);
}

static void no_jobs(void)
{
    struct bytes jobs = table(4, 0, NULL, 0), plan = plan_of(0, 0, NULL);
    struct touched nothing = { .deadline = 0 };
    touched_is("no jobs", jobs, plan, 0, 1, &nothing);
    touched_is("no jobs and all ticks", jobs, plan, 0, 1000000, &nothing);
    touching_refused("no jobs and an interval", jobs, plan_of(1, 0, NULL), 0, 1, LONG, 16, 0);
    touching_refused("no jobs and a step", jobs, plan_of(0, 1, (const uint32_t[][3]) { { 0, 0, 1 } }), 0, 1, LONG, 17, 0);
}

/* Whether or not the lists are long enough. They would be with 4, 4 and 6 numbers. */
static void refused(const char *name, struct bytes jobs, struct bytes plan, uint32_t start, uint32_t end, uint32_t number, uint32_t place)
{
    touching_refused(name, jobs, plan, start, end, NONE, number, place);
    touching_refused(name, jobs, plan, start, end, (struct room) { 4, 4, 6 }, number, place);
    touching_refused(name, jobs, plan, start, end, LONG, number, place);
}

/* With a right job table and a right plan, and with neither. */
static void span_refused(const char *name, uint32_t start, uint32_t end)
{
    struct bytes nothing = { .length = 0 };
    refused(name, four_jobs(), mixed_plan(), start, end, 33, 0);
    refused(name, nothing, nothing, start, end, 33, 0);
}

static void spans_refused(void)
{
    span_refused("no tick", 0, 0);
    span_refused("no tick in a window", 5, 5);
    span_refused("no tick at the limit", 1000000, 1000000);
    span_refused("start after end", 6, 5);
    span_refused("the latest start and the earliest end", 4294967295, 0);
    span_refused("an end past the limit", 0, 1000001);
    span_refused("a tick past the limit", 1000000, 1000001);
    span_refused("the latest end", 0, 4294967295);
    span_refused("the latest tick", 4294967294, 4294967295);
}

/* With a plan that is damaged too, and named only after the jobs. */
static void jobs_refused(const char *name, struct bytes jobs, uint32_t number, uint32_t place)
{
    refused(name, jobs, cut(mixed_plan()), 3, 7, number, place);
}

static void tables_refused(void)
{
    jobs_refused("no bytes of jobs", (struct bytes) { .length = 0 }, 6, 0);
    jobs_refused("a byte of jobs", cut(table(4, 0, NULL, 0)), 6, 0);
    jobs_refused("65 jobs", table(4, 65, NULL, 0), 7, 0);
    jobs_refused("64 jobs and no bytes of them", table(4, 64, NULL, 0), 8, 0);
    jobs_refused("a byte of jobs missing", cut(four_jobs()), 8, 0);
    jobs_refused("a byte of jobs too many", extended(four_jobs()), 8, 0);
    jobs_refused("an empty window", table(4, 2, (const uint32_t[]) { 2, 9, 6, 6, 7, 5 }, 6), 9, 1);
    jobs_refused("a deadline past the limit", table(4, 2, (const uint32_t[]) { 2, 1000001, 4, 6, 7, 5 }, 6), 9, 0);
    jobs_refused("a job without cycles", table(4, 2, (const uint32_t[]) { 2, 9, 4, 6, 7, 0 }, 6), 10, 1);
    jobs_refused("too many cycles", table(4, 2, (const uint32_t[]) { 2, 9, 4, 6, 1000000001, 5 }, 6), 10, 0);
}

static void plan_refused(const char *name, struct bytes plan, uint32_t number, uint32_t place)
{
    refused(name, four_jobs(), plan, 3, 7, number, place);
    refused(name, four_jobs(), plan, 100, 200, number, place);
}

/* The places are steps of the plan as it was lent. The span is one that a faulty step touches, and one that no step touches. */
static void plans_refused(void)
{
    plan_refused("no bytes of a plan", (struct bytes) { .length = 0 }, 15, 0);
    plan_refused("three bytes of a plan", cut(plan_of(6, 0, NULL)), 15, 0);
    plan_refused("a byte missing", cut(mixed_plan()), 15, 0);
    plan_refused("a byte too many", extended(mixed_plan()), 15, 0);
    plan_refused("an interval less", plan_of(5, 0, NULL), 16, 0);
    plan_refused("an interval more", plan_of(7, 0, NULL), 16, 0);
    plan_refused("a job before its release", plan_with(1, 2, 1), 17, 5);
    plan_refused("a job after its deadline", plan_with(3, 0, 1), 17, 5);
    plan_refused("where no job is open", plan_with(4, 0, 1), 17, 5);
    plan_refused("no such interval", plan_with(6, 3, 1), 17, 5);
    plan_refused("no such job", plan_with(2, 4, 1), 17, 5);
    plan_refused("a step twice", plan_with(2, 2, 1), 17, 5);
    plan_refused("a step twice, without cycles", plan_with(2, 2, 0), 17, 5);
    plan_refused("a step without cycles", plan_with(2, 0, 0), 18, 5);
    plan_refused("more than the job's cycles", plan_with(2, 0, 8), 18, 5);
    plan_refused("the first fault of two", plan_of(6, 3, (const uint32_t[][3]) { { 0, 0, 1 }, { 1, 1, 6 }, { 4, 0, 1 } }), 18, 1);
    /* Each step may have all of the job's cycles, though together they are more. */
    struct touched wanted = { list_of("0 1 2"), list_of("1"), list_of("0 65 128 130"), 6 };
    touched_is("all of the job's cycles", four_jobs(), plan_with(2, 0, 7), 3, 7, &wanted);
}

void touching(void)
{
    spans();
    ends_of_spans();
    latest_job();
    equal_jobs();
    most_intervals();
    sums_and_loads();
    no_jobs();
    spans_refused();
    tables_refused();
    plans_refused();
}
