#include "rounds_cases.h"

#include "buffers.h"
#include "call.h"
#include "damage.h"
#include "exact.h"
#include "marks.h"
#include "parameters.h"
#include "sites.h"
#include "tasks.h"

static struct table levels, tasks, jobs;

/* What rounds must answer for the tasks as they stand, given a buffer that is long enough. */
static struct ramyearly_rounds_answer laid_out(void)
{
    struct paper_jobs ignored;
    return paper_rounds(bytes_of(&tasks), SIZE_MAX, &ignored);
}

/* Around the length wanted; or any where the tasks are refused. */
static size_t any_jobs_length(struct numbers *numbers)
{
    struct ramyearly_rounds_answer wanted = laid_out();
    if (wanted.number)
        return (size_t)ONE_OF(numbers, 0, 1, 2, 70, 2 + 12 * PAPER_JOBS, 1000);
    if (one_in(numbers, 4))
        return (wanted.length > 14 ? wanted.length - 14 : 0) + (size_t)below(numbers, 29);
    return any_buffer(numbers, wanted.length);
}

/* The round's jobs in each repeat, later by the repeats before it. */
static struct paper_jobs repeated(const struct paper_jobs *round, uint32_t multiple, unsigned times)
{
    struct paper_jobs all = { .count = times * round->count };
    for (unsigned j = 0; j < all.count; j++) {
        uint32_t before = j / round->count * multiple;
        all.release[j] = before + round->release[j % round->count];
        all.deadline[j] = before + round->deadline[j % round->count];
        all.cycles[j] = round->cycles[j % round->count];
    }
    return all;
}

/* What idling takes between the repeats, times all gaps: from each round's latest deadline to the next one's earliest release. */
static uint64_t idle_between(const struct paper_site *round, uint32_t multiple, unsigned times)
{
    unsigned n = round->intervals.count;
    if (n == 0)
        return 0;
    uint64_t stretch = multiple - (round->intervals.bound[n] - round->intervals.bound[0]);
    return (times - 1) * stretch * (uint64_t)paper_idle_power(&round->levels) * paper_gaps(&round->points);
}

/* The levels, and the jobs that were written, with any marks and any parameters that refuse no job. */
static struct paper_site site_of_round(struct numbers *numbers)
{
    struct paper_levels given;
    struct paper_jobs released;
    same("the level table is read", paper_read_levels(bytes_of(&levels), &given).number, 0);
    same("the job table is read", paper_read_jobs(bytes_of(&jobs), &released).number, 0);
    return site_given((struct paper_given) { given, released, fitting_parameters(numbers, &given, &released) }, any_marks(numbers, &released));
}

/* As often as a job table and its deadlines have room for. */
static uint64_t most_repeats(const struct paper_jobs *round, uint32_t multiple)
{
    uint64_t by_jobs = round->count > 0 ? PAPER_JOBS / round->count : 1, by_time = PAPER_TIME / multiple;
    return by_jobs < by_time ? by_jobs : by_time;
}

/* Plans the round that was written, and two or more repeats of it, each with marks of its own and with the same parameters. They are planned
 * exactly when the round is, and have so many times its least exact energy and that of idling between; where that wraps, both sides wrap alike. */
static void plan_repeats(struct numbers *numbers, uint32_t multiple)
{
    struct paper_site round = site_of_round(numbers);
    struct planned once = plan_exactly(numbers, &round);
    uint64_t most = most_repeats(&round.jobs, multiple);
    if (most < 2)
        return;
    unsigned times = (unsigned)between(numbers, 2, most);
    struct paper_jobs all_jobs = repeated(&round.given.jobs, multiple, times);
    struct paper_site all = site_given((struct paper_given) { round.given.levels, all_jobs, round.given.parameters }, any_marks(numbers, &all_jobs));
    struct planned repeats = plan_exactly(numbers, &all);
    same("the repeated round was planned", repeats.came_out, once.came_out);
    if (once.came_out && repeats.came_out)
        same("exact energy of the repeats times all gaps", (int64_t)repeats.exact,
            (int64_t)(times * once.exact + idle_between(&round, multiple, times)));
    call_report("the repeated round");
}

static struct paper_tasks make_tasks(struct numbers *numbers)
{
    struct paper_levels given = any_levels(numbers);
    levels_table(&levels, &given);
    return any_tasks(numbers, &given);
}

/* Some tables have more tasks, as many as are allowed or past it. */
void laid_out_rounds(struct numbers *numbers)
{
    struct paper_tasks given = make_tasks(numbers);
    bool more = given.count > 0 && one_in(numbers, 16);
    tasks_table(&tasks, more ? (unsigned)ONE_OF(numbers, 15, 16, 17, 18, 256, 272) : given.count, &given);
    for (unsigned i = 0; i < 4; i++) {
        size_t length = any_jobs_length(numbers);
        compare_rounds(numbers, &tasks, length, &jobs);
    }
    if (one_in(numbers, 4) && compare_rounds(numbers, &tasks, 2 + 12 * PAPER_JOBS, &jobs))
        plan_repeats(numbers, laid_out().multiple);
}

void damaged_tasks(struct numbers *numbers)
{
    struct paper_tasks given = make_tasks(numbers);
    tasks_table(&tasks, given.count, &given);
    if (one_in(numbers, 8))
        any_bytes(numbers, &tasks, 40, 3);
    else
        for (unsigned faults = (unsigned)ONE_OF(numbers, 1, 1, 1, 2, 3); faults > 0; faults--)
            damage_tasks(numbers, &tasks);
    size_t length = any_jobs_length(numbers);
    compare_rounds(numbers, &tasks, length, &jobs);
}
