#include "calls.h"

#include <stdbool.h>
#include <stdio.h>
#include <stdlib.h>
#include <string.h>

#include "plain.h"

struct buffers {
    uint8_t plan[4 + 6 * MAX_PAIRS], prices[2 + 5 * MAX_INTERVALS];
    uint32_t shares[MAX_JOBS * MAX_INTERVALS];
};

struct site site;
struct network network;
struct ramyearly_plan_answer planned;
static struct ramyearly_plan_answer answered;
static struct buffers ours, theirs;
/* Our plan with its steps out of order, and what ordering makes of it. */
static uint8_t mixed[4 + 6 * MAX_PAIRS], ordered[4 + 6 * MAX_PAIRS];
/* What touches all ticks, by the same plan. */
static uint32_t open_jobs[MAX_JOBS], inside_jobs[MAX_JOBS], cells[MAX_PAIRS];
static struct ramyearly_touching_answer touched;
/* The jobs with the one nearest to trouble first, and what planning without a plan buffer answers. */
static uint32_t nearest_jobs[2 * MAX_JOBS];
static struct ramyearly_nearest_answer nearest;
static struct ramyearly_plan_answer refused;
static struct totals loads_by_band;
static uint64_t loads[MAX_INTERVALS];
static volatile uint64_t kept;

void wrong(const char *who, const char *what)
{
    fprintf(stderr, "bench: %s %d jobs, seed %d: %s: %s\n", site.family, site.jobs, site.seed, who, what);
    exit(1);
}

#define LEVELS site.level_bytes, site.level_length
#define JOBS site.job_bytes, site.job_length
#define MARKS site.mark_bytes, site.mark_length
/* Nothing is altered: all running levels, no free ticks and no margin. */
#define PARAMETERS site.levels, 0, 0
#define BUFFERS(to) (to).plan, sizeof (to).plan, (to).prices, sizeof (to).prices, (to).shares, sizeof (to).shares / sizeof *(to).shares

void call_plan(void)
{
    planned = ramyearly_plan(LEVELS, JOBS, MARKS, PARAMETERS, BUFFERS(ours));
}

void call_plain(void)
{
    answered = plain_plan(LEVELS, JOBS, MARKS, BUFFERS(theirs));
}

static struct ramyearly_fits_answer fitted(const uint8_t *steps)
{
    return ramyearly_fits(LEVELS, JOBS, MARKS, PARAMETERS, steps, 4 + 6 * planned.steps);
}

void call_fits(void)
{
    kept = fitted(ours.plan).energy;
}

void call_fits_mixed(void)
{
    kept = fitted(mixed).energy;
}

static struct ramyearly_check_answer checked(const uint8_t *steps)
{
    return ramyearly_check(LEVELS, JOBS, MARKS, PARAMETERS, steps, 4 + 6 * planned.steps, ours.prices, 2 + 5 * planned.intervals);
}

void call_check(void)
{
    kept = checked(ours.plan).energy;
}

void call_check_mixed(void)
{
    kept = checked(mixed).energy;
}

#ifdef WITH_BEFORE
__typeof__(ramyearly_plan) before_plan;
__typeof__(ramyearly_check) before_check;

static struct ramyearly_check_answer checked_before(void)
{
    return before_check(LEVELS, JOBS, MARKS, PARAMETERS, ours.plan, 4 + 6 * planned.steps, ours.prices, 2 + 5 * planned.intervals);
}

void call_plan_before(void)
{
    answered = before_plan(LEVELS, JOBS, MARKS, PARAMETERS, BUFFERS(theirs));
}

void call_check_before(void)
{
    kept = checked_before().energy;
}
#endif

void call_order(void)
{
    kept = ramyearly_order(LEVELS, JOBS, MARKS, PARAMETERS, mixed, 4 + 6 * planned.steps, ours.prices, 2 + 5 * planned.intervals,
        ordered, sizeof ordered).length;
}

void call_touching(void)
{
    touched = ramyearly_touching(JOBS, MARKS, 0, 0, mixed, 4 + 6 * planned.steps, 0, MAX_DEADLINE, open_jobs, MAX_JOBS, inside_jobs, MAX_JOBS,
        cells, MAX_PAIRS);
}

void call_nearest(void)
{
    nearest = ramyearly_nearest(LEVELS, JOBS, PARAMETERS, nearest_jobs, 2 * MAX_JOBS);
}

void call_windows(void)
{
    refused = ramyearly_plan(LEVELS, JOBS, MARKS, PARAMETERS, ours.plan, 0, ours.prices, sizeof ours.prices, ours.shares,
        sizeof ours.shares / sizeof *ours.shares);
}

void call_settings(void)
{
    for (uint32_t i = 0; i < planned.intervals; i++)
        kept = ramyearly_setting(LEVELS, site.levels, network.size[i], loads[i]).extra;
}

void call_spare(void)
{
    kept = ramyearly_spare(LEVELS, JOBS, PARAMETERS, site.release[0], site.deadline[0]).spare;
}

/* The most tasks and jobs there are: 16 tasks of 64 jobs in 20 ticks, one of period 20, three of 4 and twelve of 5. Each has
 * phase 0, deadline 1 and one cycle. */
enum { TASKS = 16 };
static uint8_t tasks[2 + 16 * TASKS], laid_out[2 + 12 * MAX_JOBS];

void call_rounds(void)
{
    kept = ramyearly_rounds(tasks, sizeof tasks, laid_out, sizeof laid_out).length;
}

void open_tasks(void)
{
    tasks[0] = TASKS;
    for (int i = 0; i < TASKS; i++) {
        tasks[2 + 8 * i + 4] = i < 1 ? 20 : i < 4 ? 4 : 5;
        tasks[2 + 8 * TASKS + 8 * i] = tasks[2 + 8 * TASKS + 8 * i + 4] = 1;
    }
    call_rounds();
    if (laid_out[0] != MAX_JOBS)
        wrong("rounds", "not as many jobs as there are");
}

static uint64_t load_of(const struct buffers *of, int interval)
{
    uint64_t load = 0;
    for (int j = 0; j < network.jobs; j++)
        load += of->shares[interval * network.jobs + j];
    return load;
}

/* Our plan's loads, from the shares. */
static void take_loads(void)
{
    memset(&loads_by_band, 0, sizeof loads_by_band);
    for (int i = 0; i < network.intervals; i++) {
        loads[i] = load_of(&ours, i);
        for (int k = 0; k < network.bands; k++) {
            int64_t above = (int64_t)loads[i] - network.size[i] * network.lower[k], room = network.size[i] * network.gap[k];
            if (above > 0)
                loads_by_band.band[k] += above < room ? above : room;
        }
    }
}

void same_optimum(const char *who, const struct totals *t)
{
    if (exact_energy(&network, t) != exact_energy(&network, &loads_by_band))
        wrong(who, "another exact energy");
    if (energy_figure(&network, t) != (int64_t)planned.energy)
        wrong(who, "another figure");
}

/* Whether another planner has our answer and writes our bytes. */
static void same_plan(const char *who, void (*call)(void))
{
    memset(&theirs, 0, sizeof theirs);
    call();
    if (memcmp(&planned, &answered, sizeof planned) || memcmp(&ours, &theirs, sizeof ours))
        wrong(who, "another plan");
}

#ifdef WITH_BEFORE
/* Whether planning of an earlier commit has our loads, figure and prices. Its shares and steps may be others, where several plans are
 * least. */
static void same_loads_before(void)
{
    memset(&theirs, 0, sizeof theirs);
    call_plan_before();
    if (answered.number || answered.intervals != planned.intervals || answered.energy != planned.energy
        || memcmp(ours.prices, theirs.prices, sizeof ours.prices))
        wrong("planning before", "another figure or other prices");
    for (int i = 0; i < network.intervals; i++)
        if (load_of(&theirs, i) != loads[i])
            wrong("planning before", "another load");
}
#endif

/* Whether our plan is short. */
static void few_steps(void)
{
    if (planned.steps > planned.intervals + site.jobs - 1)
        wrong("planning", "more steps than jobs and intervals less 1");
}

static void accepts(const char *who, uint32_t number, uint64_t energy)
{
    if (number || energy != planned.energy)
        wrong(who, "does not accept the plan");
}

/* Whether our plan is accepted with its figure, without prices and with them. */
static void all_accept(void)
{
    struct ramyearly_fits_answer f = fitted(ours.plan);
    accepts("fitting", f.number, f.energy);
    struct ramyearly_check_answer c = checked(ours.plan);
    accepts("checking", c.number, c.energy);
#ifdef WITH_BEFORE
    c = checked_before();
    accepts("checking before", c.number, c.energy);
#endif
}

/* Whether all jobs are open in all ticks and inside them, and all steps are listed, in the order of our plan. */
static void all_touched(void)
{
    uint32_t jobs = (uint32_t)site.jobs;
    call_touching();
    if (touched.number || touched.open != jobs || touched.inside != jobs || touched.steps != planned.steps)
        wrong("touching", "not all jobs and steps");
    for (uint32_t s = 0; s < planned.steps; s++)
        if (cells[s] != ours.plan[4 + 2 * s] + 256u * ours.plan[5 + 2 * s])
            wrong("touching", "another cell");
}

/* What the window from a release to a deadline has left at the top frequency. */
static int64_t spare_between(uint32_t release, uint32_t deadline)
{
    int64_t spare = ((int64_t)deadline - release) * site.frequency[site.levels - 1];
    for (int j = 0; j < site.jobs; j++)
        if (site.release[j] >= release && site.deadline[j] <= deadline)
            spare -= site.cycles[j];
    return spare;
}

/* The least that is left in a window with the whole job inside, for each job. */
static void least_spares(int64_t least[MAX_JOBS])
{
    for (int j = 0; j < site.jobs; j++)
        least[j] = INT64_MAX;
    for (int a = 0; a < site.jobs; a++)
        for (int b = 0; b < site.jobs; b++) {
            int64_t spare = spare_between(site.release[a], site.deadline[b]);
            for (int j = 0; j < site.jobs; j++)
                if (site.release[a] <= site.release[j] && site.deadline[j] <= site.deadline[b] && spare < least[j])
                    least[j] = spare;
        }
}

/* Whether each job is listed once with that number, the smallest first and equal ones by job number. */
static void all_listed(void)
{
    int64_t least[MAX_JOBS];
    bool listed[MAX_JOBS] = { false };
    uint32_t jobs = (uint32_t)site.jobs;
    least_spares(least);
    call_nearest();
    if (nearest.number || nearest.length != 2 * jobs)
        wrong("nearest", "not all jobs");
    for (uint32_t i = 0; i < jobs; i++) {
        const uint32_t *at = &nearest_jobs[2 * i];
        if (at[0] >= jobs || listed[at[0]] || at[1] != least[at[0]])
            wrong("nearest", "another number of cycles");
        if (i > 0 && (at[-1] > at[1] || (at[-1] == at[1] && at[-2] > at[0])))
            wrong("nearest", "out of order");
        listed[at[0]] = true;
    }
}

void test_windows(void)
{
    call_windows();
    if (refused.number != 12)
        wrong("the window test", "not refused by the plan buffer");
}

/* Plans the site, and holds what comes out against all others. Each is called once: instructions are counted here. */
static void plan_site(void)
{
    make_network(&network, &site);
    memset(&ours, 0, sizeof ours);
    call_plan();
    if (planned.number)
        wrong("planning", "refused");
    few_steps();
    take_loads();
    same_optimum("planning", &loads_by_band);
    all_accept();
    mix_steps(mixed, ours.plan, planned.steps);
    call_order();
    if (kept != 4 + 6 * planned.steps || memcmp(ordered, ours.plan, kept))
        wrong("ordering", "another plan");
    all_touched();
    all_listed();
    same_plan("plain planner", call_plain);
#ifdef WITH_BEFORE
    same_loads_before();
#endif
}

void open_site(int family, int jobs, int seed)
{
    make_site(&site, family, jobs, seed);
    plan_site();
}

void open_windows(int family, int jobs, int seed)
{
    make_site(&site, family, jobs, seed);
    test_windows();
}

void mark_site(void)
{
    wide exact = exact_energy(&network, &loads_by_band);
    set_marks(&site);
    plan_site();
    if (exact_energy(&network, &loads_by_band) != exact)
        wrong("planning", "another exact energy with marks");
}

/* Nothing plans it: no site of the families has so many steps. */
void open_longest(void)
{
    make_longest(&site, ours.plan, ours.prices);
    planned = (struct ramyearly_plan_answer){ .intervals = MAX_INTERVALS, .steps = MAX_PAIRS };
    mix_steps(mixed, ours.plan, MAX_PAIRS);
    call_order();
    if (kept != sizeof ordered || memcmp(ordered, ours.plan, sizeof ordered))
        wrong("ordering", "another plan");
    all_touched();
}
