/* The cases of the job nearest to trouble. Level pair T has top 4, so that a window of L ticks has 4 x L cycles. */
#include "support.h"

enum { JOBS = 64, NONE = 0, LONG = 140 };

/* Three numbers for each job: its release, its deadline and its cycles. */
static struct bytes jobs_at(const char *text)
{
    struct list numbers = list_of(text), ordered = { .length = numbers.length };
    size_t count = numbers.length / 3;
    for (size_t j = 0; j < count; j++) {
        ordered.at[2 * j] = numbers.at[3 * j];
        ordered.at[2 * j + 1] = numbers.at[3 * j + 1];
        ordered.at[2 * count + j] = numbers.at[3 * j + 2];
    }
    return table(4, (unsigned)count, ordered.at, ordered.length);
}

/* Into a list that is just long enough, longer ones, and one too short. */
static void list_is(const char *name, struct bytes levels, struct bytes jobs, struct parameters p, const struct list *wanted)
{
    const size_t exact = wanted->length, longer[] = { exact, exact + 1, exact + 2, LONG };
    const struct ramyearly_nearest_answer too_short = { .number = 14, .place = (uint32_t)exact };
    for (unsigned i = 0; i < sizeof longer / sizeof *longer; i++)
        nearest_altered_is(name, levels, jobs, p, longer[i], wanted);
    if (exact > 0) {
        nearest_altered_refused(name, levels, jobs, p, exact - 1, too_short);
        nearest_altered_refused(name, levels, jobs, p, exact / 2, too_short);
        nearest_altered_refused(name, levels, jobs, p, NONE, too_short);
    }
}

/* Under T: each job and its most cycles, the nearest first. */
static void most_is(const char *name, const char *jobs, const char *wanted)
{
    struct list list = list_of(wanted);
    list_is(name, level_pair(), jobs_at(jobs), unaltered(level_pair()), &list);
}

static void one_job(void)
{
    most_is("one job", "0 1 3", "0 1");
    most_is("one job that fills", "0 1 4", "0 0");
    most_is("one cycle", "0 1 1", "0 3");
    most_is("a long window", "5 25 7", "0 73");
    most_is("the latest window", "999999 1000000 1", "0 3");
}

static void several_jobs(void)
{
    /* The second job fills its tick. From 0 to 4 are 16 less 10. */
    most_is("the listed site", "0 4 6  2 3 4", "1 0 0 6");
    /* From 0 to 2 are 8 less 5; the second job's own tick has 3 left too. */
    most_is("one number twice", "0 2 4  1 2 1", "0 3 1 3");
    /* From 0 to 1, 2 and 3: 4 less 1, 8 less 3, 12 less 4. */
    most_is("the last job first", "0 3 1  0 2 2  0 1 1", "2 3 1 5 0 8");
    most_is("a longer window", "0 2 4  1 2 1  0 3 1", "0 3 1 3 2 6");
    most_is("a window that ends later", "0 1 1  0 3 1", "0 3 1 10");
    most_is("one full, one not", "0 1 1  1 2 4", "1 0 0 3");
    most_is("three of one number", "0 3 7  1 2 2  0 2 2", "0 1 1 1 2 1");
}

/* Each job is in more windows than its own. */
static void other_windows(void)
{
    /* From 0 to 4 are 16 less 15, and from 1 to 3 are 8 less 1. */
    most_is("a window around it", "1 3 1  0 4 14", "0 1 1 1");
    most_is("a window with a later end", "0 2 1  0 3 10", "0 1 1 1");
    most_is("a window with an earlier start", "1 3 1  0 3 10", "0 1 1 1");
    /* From 0 to 5 are 20 less 19, which is no job's own window: from 0 to 3 and from 2 to 5 are 12 less 10, from 2 to 3 are 4 less 1. */
    most_is("from one job's release to another's deadline", "0 3 9  2 5 9  2 3 1", "0 1 1 1 2 1");
    most_is("its own window", "0 3 5  2 5 5  2 3 3", "2 1 0 4 1 4");
    /* The first job fills its window. What is not wholly inside that is not held back by it: from 0 to 4 are 16 less 9. */
    most_is("a full window before it", "0 2 8  2 4 1", "0 0 1 7");
    most_is("a full window beside it", "0 2 8  1 4 1", "0 0 1 7");
    most_is("a full window after it", "2 4 8  0 2 1", "0 0 1 7");
    most_is("a full window inside it", "1 2 4  0 3 1", "0 0 1 7");
    most_is("in a full window", "0 3 8  1 2 4", "0 0 1 0");
}

/* By job number where the most cycles are the same, wherever the jobs stand. */
static void equal_numbers(void)
{
    most_is("two equal jobs that fill", "0 2 4  0 2 4", "0 0 1 0");
    most_is("two equal jobs", "0 2 3  0 2 4", "0 1 1 1");
    most_is("equal jobs apart", "5 6 3  0 1 3  9 10 3", "0 1 1 1 2 1");
    most_is("two windows with one number", "5 7 4  0 2 4  5 7 3  0 2 3", "0 1 1 1 2 1 3 1");
    most_is("two windows, the first with more", "5 7 4  0 2 3  5 7 3  0 2 3", "0 1 2 1 1 2 3 2");
    most_is("three numbers, each twice", "20 21 1  0 1 4  10 11 2  30 31 4  40 41 1  50 51 2", "1 0 3 0 2 2 5 2 0 3 4 3");
}

static void no_jobs(void)
{
    most_is("no jobs", "", "");
}

/* The fastest level, 1,000 at 500, in the longest window: 1,000,000,000 cycles. */
static void largest_numbers(void)
{
    struct bytes fastest = table(2, 1, (const uint32_t[]) { 1000, 500 }, 2);
    const struct list one = list_of("0 999999999"), full = list_of("0 0"), two = list_of("1 999 0 999999998"), half = list_of("0 0 1 0");
    list_is("the most of all", fastest, jobs_at("0 1000000 1"), unaltered(fastest), &one);
    list_is("the most cycles", fastest, jobs_at("0 1000000 1000000000"), unaltered(fastest), &full);
    list_is("a short window and the longest", fastest, jobs_at("0 1000000 1  0 1 1"), unaltered(fastest), &two);
    list_is("two halves", fastest, jobs_at("0 1000000 500000000  0 1000000 500000000"), unaltered(fastest), &half);
}

/* The jobs as they are given here, release, deadline and cycles of each. */
static struct bytes most_jobs(uint32_t (*job)(uint32_t j, unsigned field))
{
    uint32_t numbers[3 * JOBS];
    for (uint32_t j = 0; j < JOBS; j++) {
        numbers[2 * j] = job(j, 0);
        numbers[2 * j + 1] = job(j, 1);
        numbers[2 * JOBS + j] = job(j, 2);
    }
    return table(4, JOBS, numbers, 3 * JOBS);
}

/* All from 0 to 50, 3 cycles each: 200 less 192. */
static uint32_t equal_job(uint32_t j, unsigned field)
{
    (void)j;
    return (const uint32_t[]) { 0, 50, 3 }[field];
}

/* Each inside the one before. The first has all but 5 of the 800 cycles from 0 to 200 that the others leave, with one each. */
static uint32_t nested_job(uint32_t j, unsigned field)
{
    return (const uint32_t[]) { j, 200 - j, j == 0 ? 800 - 63 - 5 : 1 }[field];
}

/* 20 ticks each, 5 ticks apart, the last first: all but 63 - j of its 80 cycles. */
static uint32_t job_apart(uint32_t j, unsigned field)
{
    uint32_t release = 25 * (63 - j);
    return (const uint32_t[]) { release, release + 20, 17 + j }[field];
}

static void sixty_four_jobs(void)
{
    struct bytes t = level_pair();
    struct list eight = { .length = 2 * JOBS }, five = eight, falling = eight;
    for (uint32_t j = 0; j < JOBS; j++) {
        eight.at[2 * j] = five.at[2 * j] = j;
        eight.at[2 * j + 1] = 8;
        five.at[2 * j + 1] = 5;
        falling.at[2 * j] = 63 - j;
        falling.at[2 * j + 1] = j;
    }
    list_is("64 equal jobs", t, most_jobs(equal_job), unaltered(t), &eight);
    list_is("64 jobs, each inside the one before", t, most_jobs(nested_job), unaltered(t), &five);
    list_is("64 jobs apart", t, most_jobs(job_apart), unaltered(t), &falling);
}

static void altered_is(const char *name, struct bytes levels, const char *jobs, struct parameters p, const char *wanted)
{
    struct list list = list_of(wanted);
    list_is(name, levels, jobs_at(jobs), p, &list);
}

/* Jobs 0 4 3 and 2 3 1 have, with the first level, 2 less 1 and 8 less 4. */
static void altered_sites(void)
{
    struct bytes t = level_pair(), idle = table(2, 3, (const uint32_t[]) { 0, 2, 4, 0, 10, 20 }, 6);
    struct bytes draw = table(2, 3, (const uint32_t[]) { 0, 2, 4, 1, 30, 40 }, 6);
    altered_is("all levels", t, "0 4 3  2 3 1", (struct parameters) { 2, 0, 0 }, "1 3 0 12");
    altered_is("the first level", t, "0 4 3  2 3 1", (struct parameters) { 1, 0, 0 }, "1 1 0 4");
    altered_is("the first level after an idle entry", idle, "0 4 3  2 3 1", (struct parameters) { 1, 0, 0 }, "1 1 0 4");
    altered_is("all levels after an idle entry", idle, "0 4 3  2 3 1", (struct parameters) { 2, 0, 0 }, "1 3 0 12");
    altered_is("an idle draw", draw, "0 4 6  2 3 4", (struct parameters) { 2, 0, 0 }, "1 0 0 6");
    /* The deadlines are 3 and 4, and the first job is inside the second: 12 less 4, and 16 less 7. */
    altered_is("free ticks", t, "0 5 4  0 6 3", (struct parameters) { 2, 2, 0 }, "0 8 1 9");
    altered_is("no free ticks", t, "0 5 4  0 6 3", (struct parameters) { 2, 0, 0 }, "0 16 1 17");
    /* Cycles are added to those with the margin: 8 less 6, of 4 and half as many. */
    altered_is("a margin", t, "0 2 4", (struct parameters) { 2, 0, 50 }, "0 2");
    altered_is("a margin rounded up", t, "0 1 1", (struct parameters) { 2, 0, 1 }, "0 2");
    altered_is("a margin rounded up job by job", t, "0 2 1  0 2 1", (struct parameters) { 2, 0, 1 }, "0 4 1 4");
    altered_is("the largest margin", t, "0 1 2", (struct parameters) { 2, 0, 100 }, "0 0");
    /* Jobs 0 3 2 and 1 2 2 at 2 cycles a tick: 2 less 2, and 6 less 4. */
    altered_is("all three", t, "0 4 1  1 3 1", (struct parameters) { 1, 1, 100 }, "1 0 0 2");
    /* With the margin one job has 1,000,000,000 cycles and the other half as many: the longest window has no more. */
    nearest_altered_refused("the margin past the longest window", table(2, 1, (const uint32_t[]) { 1000, 500 }, 2),
        jobs_at("0 1000000 500000000  0 1000000 250000000"), (struct parameters) { 1, 0, 100 }, 4,
        (struct ramyearly_nearest_answer) { .number = 11, .start = 0, .end = 1000000, .spare = -500000000 });
}

/* Whether or not the list is long enough: 11 comes before 14. */
static void overfull_is(const char *name, const char *jobs, struct parameters p, uint32_t start, uint32_t end, int64_t spare)
{
    const struct ramyearly_nearest_answer wanted = { .number = 11, .start = start, .end = end, .spare = spare };
    const size_t count = list_of(jobs).length / 3, lengths[] = { NONE, 1, 2 * count - 1, 2 * count, LONG };
    for (unsigned i = 0; i < sizeof lengths / sizeof *lengths; i++)
        nearest_altered_refused(name, level_pair(), jobs_at(jobs), p, lengths[i], wanted);
}

static void overfull_sets(void)
{
    const struct parameters given = { 2, 0, 0 };
    overfull_is("one cycle too many", "0 1 5", given, 0, 1, -1);
    overfull_is("three equal jobs", "0 2 4  0 2 4  0 2 4", given, 0, 2, -4);
    overfull_is("a later window", "0 9 1  2 5 15", given, 2, 5, -3);
    overfull_is("a window of two jobs", "2 5 9  0 3 9  2 3 3", given, 0, 5, -1);
    overfull_is("the earliest start", "3 4 9  1 3 9", given, 1, 3, -1);
    overfull_is("the earliest end", "3 4 9  1 2 7  1 3 20", given, 1, 2, -3);
    overfull_is("far overfull", "0 1 1000000000  0 1 1000000000  0 1 1000000000  0 1 1000000000  0 1 1000000000", given, 0, 1, -4999999996);
    overfull_is("one job that fits beside", "0 1 1  5 6 5", given, 5, 6, -1);
    overfull_is("overfull by the highest level", "0 4 6  2 3 4", (struct parameters) { 1, 0, 0 }, 0, 4, -2);
    overfull_is("overfull by a free tick", "0 5 16", (struct parameters) { 2, 2, 0 }, 0, 3, -4);
    overfull_is("overfull by the margin", "3 5 8", (struct parameters) { 2, 0, 1 }, 3, 5, -1);
}

/* With all that comes later wrong too: the jobs, the parameters, an overfull window and a list too short; and with a long list. */
static void refused(const char *name, struct bytes levels, struct bytes jobs, struct parameters p, uint32_t number, uint32_t place)
{
    const struct ramyearly_nearest_answer wanted = { .number = number, .place = place };
    nearest_altered_refused(name, levels, jobs, p, NONE, wanted);
    nearest_altered_refused(name, levels, jobs, p, 2, wanted);
    nearest_altered_refused(name, levels, jobs, p, LONG, wanted);
}

static void levels_refused(const char *name, struct bytes levels, uint32_t number, uint32_t place)
{
    refused(name, levels, cut(jobs_at("0 1 5")), (struct parameters) { 0, 1000001, 101 }, number, place);
    refused(name, levels, jobs_at("0 1 3"), (struct parameters) { 1, 0, 0 }, number, place);
}

static void jobs_refused(const char *name, struct bytes jobs, uint32_t number, uint32_t place)
{
    refused(name, level_pair(), jobs, (struct parameters) { 0, 1000001, 101 }, number, place);
    refused(name, level_pair(), jobs, (struct parameters) { 2, 0, 0 }, number, place);
}

static void tables_refused(void)
{
    levels_refused("no bytes of levels", (struct bytes) { .length = 0 }, 1, 0);
    levels_refused("no levels", table(2, 0, NULL, 0), 2, 0);
    levels_refused("nine levels", table(2, 9, NULL, 0), 2, 0);
    levels_refused("a byte of levels missing", cut(level_pair()), 3, 0);
    levels_refused("a byte of levels too many", extended(level_pair()), 3, 0);
    levels_refused("equal frequencies", table(2, 2, (const uint32_t[]) { 2, 2, 10, 20 }, 4), 4, 1);
    levels_refused("a falling voltage", table(2, 2, (const uint32_t[]) { 2, 4, 10, 9 }, 4), 5, 1);
    levels_refused("the idle entry alone", table(2, 1, (const uint32_t[]) { 0, 9 }, 2), 31, 0);
    levels_refused("a draw above a level", table(2, 2, (const uint32_t[]) { 0, 100, 10, 10 }, 4), 32, 1);
    jobs_refused("no bytes of jobs", (struct bytes) { .length = 0 }, 6, 0);
    jobs_refused("65 jobs", table(4, 65, NULL, 0), 7, 0);
    jobs_refused("a byte of jobs missing", cut(jobs_at("0 1 5  0 1 5")), 8, 0);
    jobs_refused("a byte of jobs too many", extended(jobs_at("0 1 5  0 1 5")), 8, 0);
    jobs_refused("an empty window", jobs_at("0 1 5  3 3 1"), 9, 1);
    jobs_refused("a deadline past the limit", jobs_at("0 1000001 5  0 1 5"), 9, 0);
    jobs_refused("a job without cycles", jobs_at("0 1 5  0 1 0"), 10, 1);
    jobs_refused("too many cycles", jobs_at("0 1 5  0 1 1  0 1 1000000001"), 10, 2);
}

/* Before 11, which each of these sets meets with parameters in range that alter nothing. */
static void parameters_refused(void)
{
    struct bytes t = level_pair(), idle = table(2, 3, (const uint32_t[]) { 0, 2, 4, 0, 10, 20 }, 6), jobs = jobs_at("0 4 6  2 3 5");
    refused("no level", t, jobs, (struct parameters) { 0, 0, 0 }, 35, 0);
    refused("a level more than there are", t, jobs, (struct parameters) { 3, 0, 0 }, 35, 0);
    refused("as many as entries, of which one is idle", idle, jobs, (struct parameters) { 3, 0, 0 }, 35, 0);
    refused("a free tick too many", t, jobs, (struct parameters) { 2, 1000001, 0 }, 35, 0);
    refused("a percent too many", t, jobs, (struct parameters) { 2, 0, 101 }, 35, 0);
    refused("a window emptied, and a percent too many", t, jobs, (struct parameters) { 2, 1, 101 }, 35, 0);
    refused("a window emptied", t, jobs, (struct parameters) { 2, 1, 0 }, 36, 1);
    refused("all windows emptied", t, jobs, (struct parameters) { 2, 4, 0 }, 36, 0);
    refused("too many cycles with the margin", t, jobs_at("0 1 9  0 1 1000000000"), (struct parameters) { 2, 0, 1 }, 36, 1);
}

void nearest(void)
{
    one_job();
    several_jobs();
    other_windows();
    equal_numbers();
    no_jobs();
    largest_numbers();
    sixty_four_jobs();
    altered_sites();
    overfull_sets();
    tables_refused();
    parameters_refused();
}
