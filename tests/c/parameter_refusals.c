/* The cases where site parameters are refused: 35, a parameter out of range, and 36, a job by its altered window or cycles. */
#include "support.h"

static const struct room NONE = { 0, 0, 0 }, LONG = { 100, 100, 100 };

/* Under T jobs 0 4 6 and 2 3 4, as document 01 lists them. */
struct site {
    struct bytes levels, jobs, marks;
};

static struct site listed(void)
{
    return (struct site) { level_pair(), table(4, 2, (const uint32_t[]) { 0, 4, 2, 3, 6, 4 }, 6), marks_at("") };
}

static struct bytes listed_plan(void)
{
    return plan_of(3, 3, (const uint32_t[][3]) { { 0, 0, 4 }, { 1, 1, 4 }, { 2, 0, 2 } });
}

static struct bytes listed_prices(void)
{
    return prices_of(3, (const uint32_t[]) { 2, 3, 4 }, (const uint8_t[]) { 1, 2, 1 });
}

/* T after an idle entry without a draw: as many running levels, and the same answers. */
static struct bytes idle_pair(void)
{
    return table(2, 3, (const uint32_t[]) { 0, 2, 4, 0, 10, 20 }, 6);
}

/* By each function that takes levels and jobs: where all that comes later is right, and where all of it is wrong. */
static void site_refused(const char *name, struct site s, struct parameters p, uint32_t number, uint32_t place)
{
    struct bytes nothing = { .length = 0 };
    struct ramyearly_spare_answer spare = { .number = number, .place = place };
    struct ramyearly_fits_answer fits = { .number = number, .place = place };
    struct ramyearly_check_answer check = { .number = number, .place = place };
    struct ramyearly_plan_answer plan = { .number = number, .place = place };
    struct ramyearly_nearest_answer nearest = { .number = number, .place = place };
    spare_altered_is(name, s.levels, s.jobs, p, 0, 4, spare);
    spare_altered_is(name, s.levels, s.jobs, p, 4, 4, spare);
    spare_altered_is(name, s.levels, s.jobs, p, 0, UINT32_MAX, spare);
    nearest_altered_refused(name, s.levels, s.jobs, p, 128, nearest);
    nearest_altered_refused(name, s.levels, s.jobs, p, 0, nearest);
    fits_altered_is(name, s.levels, s.jobs, s.marks, p, listed_plan(), fits);
    fits_altered_is(name, s.levels, s.jobs, s.marks, p, nothing, fits);
    check_altered_is(name, s.levels, s.jobs, s.marks, p, listed_plan(), listed_prices(), check);
    check_altered_is(name, s.levels, s.jobs, s.marks, p, nothing, nothing, check);
    plan_altered_is(name, s.levels, s.jobs, s.marks, p, 64, 32, 16, plan);
    plan_altered_is(name, s.levels, s.jobs, s.marks, p, 0, 0, 0, plan);
    order_altered_refused(name, s.levels, s.jobs, s.marks, p, listed_plan(), listed_prices(), 22, number, place);
    order_altered_refused(name, s.levels, s.jobs, s.marks, p, nothing, nothing, 0, number, place);
}

/* Touching takes no highest level. */
static void jobs_refused(const char *name, struct site s, struct parameters p, uint32_t number, uint32_t place)
{
    struct bytes nothing = { .length = 0 };
    site_refused(name, s, p, number, place);
    touching_altered_refused(name, s.jobs, s.marks, p, listed_plan(), 0, 4, LONG, number, place);
    touching_altered_refused(name, s.jobs, s.marks, p, nothing, 0, 4, NONE, number, place);
    touching_altered_refused(name, s.jobs, s.marks, p, nothing, 4, 4, NONE, 33, 0);
    touching_altered_refused(name, s.jobs, s.marks, p, listed_plan(), 0, 1000001, LONG, 33, 0);
}

/* Whatever the jobs are: none, one whose window the free ticks empty, an overfull one. */
static void highest_refused(const char *name, struct bytes levels, uint32_t highest)
{
    struct site s = { levels, listed().jobs, marks_at("") };
    struct ramyearly_setting_answer setting = { .number = 35 };
    setting_altered_is(name, levels, highest, 3, 7, setting);
    setting_altered_is(name, levels, highest, 0, 7, setting);
    setting_altered_is(name, levels, highest, 1000001, UINT64_MAX, setting);
    site_refused(name, s, (struct parameters) { highest, 0, 0 }, 35, 0);
    site_refused(name, s, (struct parameters) { highest, 1, 100 }, 35, 0);
    s.jobs = table(4, 0, NULL, 0);
    site_refused(name, s, (struct parameters) { highest, 0, 0 }, 35, 0);
    s.jobs = table(4, 1, (const uint32_t[]) { 0, 1, 1000000000 }, 3);
    site_refused(name, s, (struct parameters) { highest, 0, 0 }, 35, 0);
}

static void highest_allowed(const char *name, struct bytes levels, uint32_t highest, uint64_t top)
{
    struct ramyearly_spare_answer spare = { .spare = (int64_t)(10 * top) };
    spare_altered_is(name, levels, table(4, 0, NULL, 0), (struct parameters) { highest, 0, 0 }, 0, 10, spare);
    setting_altered_is(name, levels, highest, 1, top + 1, (struct ramyearly_setting_answer) { .number = 26 });
}

/* From 1 to the number of running levels, and just past both. */
static void highest_levels(void)
{
    struct bytes eight = table(2, 8, (const uint32_t[]) { 1, 2, 3, 4, 5, 6, 7, 8, 1, 1, 1, 1, 1, 1, 1, 1 }, 16);
    struct bytes seven = table(2, 8, (const uint32_t[]) { 0, 1, 2, 3, 4, 5, 6, 7, 0, 1, 1, 1, 1, 1, 1, 1 }, 16);
    struct bytes one = table(2, 1, (const uint32_t[]) { 3, 10 }, 2), one_idle = table(2, 2, (const uint32_t[]) { 0, 3, 0, 10 }, 4);
    for (uint32_t highest = 1; highest <= 8; highest++)
        highest_allowed("each of eight levels", eight, highest, highest);
    for (uint32_t highest = 1; highest <= 7; highest++)
        highest_allowed("each of seven levels after an idle entry", seven, highest, highest);
    highest_allowed("the one level", one, 1, 3);
    highest_allowed("the one level after an idle entry", one_idle, 1, 3);
    highest_allowed("the first of a pair after an idle entry", idle_pair(), 1, 2);
    highest_refused("no level", level_pair(), 0);
    highest_refused("a level more than there are", level_pair(), 3);
    highest_refused("no level after an idle entry", idle_pair(), 0);
    highest_refused("as many as entries, of which one is idle", idle_pair(), 3);
    highest_refused("a ninth level", eight, 9);
    highest_refused("an eighth level after an idle entry", seven, 8);
    highest_refused("a second level", one, 2);
    highest_refused("a second level after an idle entry", one_idle, 2);
    highest_refused("a highest level of 258", level_pair(), 258);
    highest_refused("a highest level of 65,538", level_pair(), 65538);
    highest_refused("the largest highest level", level_pair(), UINT32_MAX);
}

static void number_refused(const char *name, struct parameters p)
{
    struct site s = listed();
    jobs_refused(name, s, p, 35, 0);
    s.levels = idle_pair();
    jobs_refused(name, s, p, 35, 0);
    s.jobs = table(4, 0, NULL, 0);
    jobs_refused(name, s, p, 35, 0);
}

/* Without jobs there is nothing that free ticks or a margin could alter, and they are looked at all the same. */
static void numbers_allowed(const char *name, struct parameters p)
{
    struct bytes levels = level_pair(), jobs = table(4, 0, NULL, 0), none = marks_at("");
    struct bytes plan = plan_of(0, 0, NULL), prices = prices_of(0, NULL, NULL);
    struct touched nothing = { .deadline = 0 };
    spare_altered_is(name, levels, jobs, p, 0, 10, (struct ramyearly_spare_answer) { .spare = p.highest == 1 ? 20 : 40 });
    plan_altered_is(name, levels, jobs, none, p, 4, 2, 0, (struct ramyearly_plan_answer) { .number = 0 });
    fits_altered_is(name, levels, jobs, none, p, plan, (struct ramyearly_fits_answer) { .number = 0 });
    check_altered_is(name, levels, jobs, none, p, plan, prices, (struct ramyearly_check_answer) { .number = 0 });
    order_altered_is(name, levels, jobs, none, p, plan, prices, 4, (struct ramyearly_order_answer) { .length = 4 }, plan);
    touching_altered_is(name, jobs, none, p, plan, 0, 1, NONE, &nothing);
    nearest_altered_is(name, levels, jobs, p, 0, &nothing.open);
}

static void free_ticks_and_margins(void)
{
    numbers_allowed("the most free ticks", (struct parameters) { 2, 1000000, 0 });
    numbers_allowed("the largest margin", (struct parameters) { 2, 0, 100 });
    numbers_allowed("all at their ends", (struct parameters) { 1, 1000000, 100 });
    number_refused("a free tick too many", (struct parameters) { 2, 1000001, 0 });
    number_refused("the largest free ticks", (struct parameters) { 2, UINT32_MAX, 0 });
    number_refused("a percent too many", (struct parameters) { 2, 0, 101 });
    number_refused("a margin of 256", (struct parameters) { 2, 0, 256 });
    number_refused("the largest margin there is in 32 bits", (struct parameters) { 2, 0, UINT32_MAX });
    number_refused("all three out of range", (struct parameters) { 0, 1000001, 101 });
    /* Each would be refused by 36 too. */
    number_refused("free ticks in range that empty a window, and a margin out of range", (struct parameters) { 2, 4, 101 });
    number_refused("free ticks out of range, and a margin that gives too many cycles", (struct parameters) { 2, UINT32_MAX - 1, 100 });
}

/* 35 comes after every refusal of the tables. */
static void tables_before(void)
{
    const struct parameters wrong_ones = { 0, 1000001, 101 };
    struct site s = listed();
    struct bytes levels[] = { { .length = 0 }, table(2, 0, NULL, 0), cut(level_pair()), table(2, 2, (const uint32_t[]) { 2, 2, 10, 20 }, 4),
        table(2, 2, (const uint32_t[]) { 2, 4, 10, 9 }, 4), table(2, 1, (const uint32_t[]) { 0, 9 }, 2),
        table(2, 2, (const uint32_t[]) { 0, 100, 10, 10 }, 4) };
    static const uint32_t level_numbers[][2] = { { 1, 0 }, { 2, 0 }, { 3, 0 }, { 4, 1 }, { 5, 1 }, { 31, 0 }, { 32, 1 } };
    struct bytes jobs[] = { { .length = 0 }, table(4, 65, NULL, 0), cut(listed().jobs), table(4, 2, (const uint32_t[]) { 0, 4, 3, 3, 6, 4 }, 6),
        table(4, 2, (const uint32_t[]) { 0, 4, 2, 3, 6, 1000000001 }, 6) };
    static const uint32_t job_numbers[][2] = { { 6, 0 }, { 7, 0 }, { 8, 0 }, { 9, 1 }, { 10, 1 } };
    for (unsigned i = 0; i < 7; i++) {
        s.levels = levels[i];
        site_refused("levels before parameters", s, wrong_ones, level_numbers[i][0], level_numbers[i][1]);
        setting_altered_is("levels before the highest one", levels[i], 0, 0, 7,
            (struct ramyearly_setting_answer) { .number = level_numbers[i][0], .place = level_numbers[i][1] });
    }
    s.levels = level_pair();
    for (unsigned i = 0; i < 5; i++) {
        s.jobs = jobs[i];
        jobs_refused("jobs before parameters", s, wrong_ones, job_numbers[i][0], job_numbers[i][1]);
    }
}

/* The spare and nearest take no marks: 35 is their answer. */
static void marks_before(void)
{
    struct bytes t = level_pair(), jobs = listed().jobs, bad = marks_at("1 1"), nothing = { .length = 0 };
    const struct parameters wrong_ones = { 0, 1000001, 101 };
    fits_altered_is("marks before parameters", t, jobs, bad, wrong_ones, nothing, (struct ramyearly_fits_answer) { .number = 34 });
    check_altered_is("marks before parameters", t, jobs, bad, wrong_ones, nothing, nothing, (struct ramyearly_check_answer) { .number = 34 });
    plan_altered_is("marks before parameters", t, jobs, bad, wrong_ones, 0, 0, 0, (struct ramyearly_plan_answer) { .number = 34 });
    order_altered_refused("marks before parameters", t, jobs, bad, wrong_ones, nothing, nothing, 0, 34, 0);
    touching_altered_refused("marks before parameters", jobs, bad, wrong_ones, nothing, 0, 4, NONE, 34, 0);
    plan_altered_is("marks before a job", t, jobs, bad, (struct parameters) { 2, 1, 0 }, 0, 0, 0, (struct ramyearly_plan_answer) { .number = 34 });
    touching_altered_refused("the span before all", nothing, nothing, wrong_ones, nothing, 1, 1, NONE, 33, 0);
}

static struct site with_jobs(unsigned count, const uint32_t *numbers)
{
    return (struct site) { level_pair(), table(4, count, numbers, 3 * count), marks_at("") };
}

#define WITH_JOBS(...) with_jobs(sizeof (const uint32_t[]) { __VA_ARGS__ } / 12, (const uint32_t[]) { __VA_ARGS__ })

/* One job: with so many free ticks its window has a tick, and with one more it has none. */
static void window_emptied(const char *name, uint32_t release, uint32_t deadline, uint32_t free_ticks)
{
    struct site s = WITH_JOBS(release, deadline, 2);
    struct parameters kept = { 2, free_ticks, 0 }, emptied = { 2, free_ticks + 1, 0 };
    struct bytes plan = plan_of(1, 1, (const uint32_t[][3]) { { 0, 0, 2 } }), none = marks_at("");
    struct bytes prices = prices_of(1, (const uint32_t[]) { release + 1 }, (const uint8_t[]) { 1 });
    struct touched all = { list_of("0"), list_of("0"), list_of("0"), release + 1 };
    spare_altered_is(name, s.levels, s.jobs, kept, release, release + 1, (struct ramyearly_spare_answer) { .spare = 2 });
    plan_altered_is(name, s.levels, s.jobs, none, kept, 10, 7, 1, (struct ramyearly_plan_answer) { .intervals = 1, .steps = 1, .energy = 200 });
    check_altered_is(name, s.levels, s.jobs, none, kept, plan, prices, (struct ramyearly_check_answer) { .energy = 200 });
    touching_altered_is(name, s.jobs, none, kept, plan, release, release + 1, LONG, &all);
    nearest_altered_is(name, s.levels, s.jobs, kept, 2, &(struct list) { { 0, 2 }, 2 });
    jobs_refused(name, s, emptied, 36, 0);
}

static void windows(void)
{
    window_emptied("a window of one tick", 0, 1, 0);
    window_emptied("a window of three ticks", 5, 8, 2);
    window_emptied("the longest window", 0, 1000000, 999999);
    window_emptied("the latest window", 999998, 1000000, 1);
    jobs_refused("free ticks up to the deadline", WITH_JOBS(5, 8, 2), (struct parameters) { 2, 8, 0 }, 36, 0);
    jobs_refused("free ticks past the deadline", WITH_JOBS(5, 8, 2), (struct parameters) { 2, 9, 0 }, 36, 0);
    jobs_refused("the most free ticks", WITH_JOBS(5, 8, 2), (struct parameters) { 2, 1000000, 0 }, 36, 0);
    jobs_refused("the most free ticks and the longest window", WITH_JOBS(0, 1000000, 2), (struct parameters) { 2, 1000000, 0 }, 36, 0);
}

/* One job 0 1: with the margin these cycles come to exactly 1,000,000,000, and one cycle more to too many. */
static void cycles_reached(const char *name, uint32_t margin, uint32_t cycles)
{
    struct parameters p = { 2, 0, margin };
    struct bytes plan = plan_of(1, 1, (const uint32_t[][3]) { { 0, 0, 1000000000 } }), none = marks_at("");
    struct site s = WITH_JOBS(0, 1, cycles);
    struct touched all = { list_of("0"), list_of("0"), list_of("0"), 1 };
    spare_altered_is(name, s.levels, s.jobs, p, 0, 1, (struct ramyearly_spare_answer) { .spare = 4 - 1000000000 });
    plan_altered_is(name, s.levels, s.jobs, none, p, 0, 0, 0,
        (struct ramyearly_plan_answer) { .number = 11, .start = 0, .end = 1, .spare = 4 - 1000000000 });
    nearest_altered_refused(name, s.levels, s.jobs, p, 2,
        (struct ramyearly_nearest_answer) { .number = 11, .start = 0, .end = 1, .spare = 4 - 1000000000 });
    fits_altered_is(name, s.levels, s.jobs, none, p, plan, (struct ramyearly_fits_answer) { .number = 20 });
    touching_altered_is(name, s.jobs, none, p, plan, 0, 1, LONG, &all);
    if (cycles < 1000000000)
        jobs_refused(name, WITH_JOBS(0, 1, cycles + 1), p, 36, 0);
}

static void cycles(void)
{
    cycles_reached("no margin", 0, 1000000000);
    /* 9,900,990.09 and 130,434,782.55, both rounded up. */
    cycles_reached("a margin of 1", 1, 990099009);
    cycles_reached("a margin of 15", 15, 869565217);
    cycles_reached("a margin of 25", 25, 800000000);
    cycles_reached("a margin of 100", 100, 500000000);
    jobs_refused("the most cycles and a margin", WITH_JOBS(0, 1, 1000000000), (struct parameters) { 2, 0, 1 }, 36, 0);
    jobs_refused("the most cycles and the largest margin", WITH_JOBS(0, 1, 1000000000), (struct parameters) { 2, 0, 100 }, 36, 0);
    /* Each job is looked at by itself: two of 500,000,000 are not too many. */
    spare_altered_is("two of the most cycles", level_pair(), WITH_JOBS(0, 1, 0, 1, 500000000, 500000000).jobs, (struct parameters) { 2, 0, 100 }, 0,
        1, (struct ramyearly_spare_answer) { .spare = 4 - 2000000000 });
}

/* The first job that has either fault is named, before an overfull window and whatever is wrong with later jobs. */
static void first_job(void)
{
    const struct parameters p = { 2, 3, 100 };
    jobs_refused("the first of two windows", WITH_JOBS(0, 4, 0, 3, 1, 3, 1, 1, 1), p, 36, 1);
    jobs_refused("the last of three windows", WITH_JOBS(0, 4, 0, 5, 3, 6, 1, 1, 1), p, 36, 2);
    jobs_refused("cycles before a window", WITH_JOBS(0, 4, 0, 4, 0, 3, 1, 500000001, 1), p, 36, 1);
    jobs_refused("a window before cycles", WITH_JOBS(0, 3, 0, 4, 0, 4, 1, 500000001, 1), p, 36, 0);
    jobs_refused("cycles of the last job", WITH_JOBS(0, 4, 0, 4, 0, 4, 500000000, 1, 500000001), p, 36, 2);
    jobs_refused("both of one job", WITH_JOBS(0, 4, 0, 3, 1, 1000000000), p, 36, 1);
}

static void last_of_most(void)
{
    uint32_t numbers[3 * 64];
    for (uint32_t j = 0; j < 64; j++) {
        numbers[2 * j] = j;
        numbers[2 * j + 1] = j < 63 ? j + 8 : j + 7;
        numbers[128 + j] = 1;
    }
    struct site s = with_jobs(64, numbers);
    jobs_refused("the last of 64 windows", s, (struct parameters) { 2, 7, 0 }, 36, 63);
    jobs_refused("the first of 64 windows", s, (struct parameters) { 2, 8, 0 }, 36, 0);
}

void parameter_refusals(void)
{
    highest_levels();
    free_ticks_and_margins();
    tables_before();
    marks_before();
    windows();
    cycles();
    first_job();
    last_of_most();
}
