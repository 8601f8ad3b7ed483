/* Calls the archive many times with made tables and holds every answer against the paper.
 *
 *     driver [SEED [CALLS]]       runs cases until that many calls are made
 *     driver --case SEED NUMBER   runs one case again
 */
#define _POSIX_C_SOURCE 200809L
#include <inttypes.h>
#include <sanitizer/common_interface_defs.h>
#include <signal.h>
#include <stdio.h>
#include <stdlib.h>
#include <string.h>
#include <unistd.h>

#include "groups.h"

/* A call that takes longer than this is counted as one that does not return. */
enum { SECONDS = 60 };

static uint64_t seed, case_number;

static void print_case(void)
{
    printf("in case %" PRIu64 " of seed %" PRIu64 "\n", case_number, seed);
    fflush(stdout);
}

static void stop(void)
{
    print_case();
    exit(1);
}

/* A byte beside a buffer was touched, or a call does not return. */
static void stopped(int signal_number)
{
    printf("stopped by signal %d\n", signal_number);
    print_case();
    _exit(1);
}

static void catch_signals(void)
{
    struct sigaction action = { .sa_handler = stopped };
    const int caught[] = { SIGSEGV, SIGBUS, SIGILL, SIGFPE, SIGABRT, SIGALRM };
    for (unsigned i = 0; i < sizeof caught / sizeof *caught; i++)
        sigaction(caught[i], &action, NULL);
    __sanitizer_set_death_callback(print_case);
}

static void one_case(void)
{
    struct numbers numbers = numbers_of_seed(seed, case_number);
    alarm(SECONDS);
    run_case(&numbers);
}

static void add_altered(struct altered_tally *all, const struct altered_tally *one)
{
    all->fewer_levels += one->fewer_levels;
    all->free_ticks += one->free_ticks;
    all->margins += one->margins;
    all->plans += one->plans;
    all->accepted += one->accepted;
    all->ordered += one->ordered;
    all->touched += one->touched;
    all->nearest += one->nearest;
    all->emptied += one->emptied;
    all->too_many_cycles += one->too_many_cycles;
}

static void add_short_plans(struct short_tally *all, const struct short_tally *one)
{
    all->at_limit += one->at_limit;
    all->at_pairs += one->at_pairs;
    all->most_steps += one->most_steps;
    all->spared += one->spared;
}

static void add_nearest(struct nearest_tally *all, const struct nearest_tally *one)
{
    all->lists += one->lists;
    all->equal += one->equal;
    all->some_full += one->some_full;
    all->other_window += one->other_window;
    all->most_jobs += one->most_jobs;
    all->overfull += one->overfull;
    all->too_short += one->too_short;
}

static struct tally total(void)
{
    struct tally all = { .calls = 0 };
    for (unsigned g = 0; g < GROUPS; g++) {
        const struct tally *one = &groups[g].tally;
        all.calls += one->calls;
        all.plans += one->plans;
        all.accepted += one->accepted;
        all.ordered += one->ordered;
        all.touched += one->touched;
        all.disagreements += one->disagreements;
        all.cut += one->cut;
        all.least += one->least;
        all.dearer += one->dearer;
        all.most_intervals += one->most_intervals;
        all.most_pairs += one->most_pairs;
        add_altered(&all.altered, &one->altered);
        add_short_plans(&all.short_plans, &one->short_plans);
        add_nearest(&all.nearest, &one->nearest);
        for (unsigned i = 0; i <= REFUSALS; i++) {
            all.by_number[i] += one->by_number[i];
            all.by_fits[i] += one->by_fits[i];
        }
        for (unsigned i = 0; i < PAPER_LISTS; i++)
            all.too_short[i] += one->too_short[i];
    }
    return all;
}

static void print_line(const char *name, const struct tally *t)
{
    printf("%-15s %9" PRIu64 " calls %9" PRIu64 " answered %9" PRIu64 " refused %8" PRIu64 " plans %8" PRIu64 " fitting %8" PRIu64 " accepted %8" PRIu64
        " ordered %8" PRIu64 " touched %8" PRIu64 " listed\n",
        name, t->calls, t->by_number[0], t->calls - t->by_number[0], t->plans, t->by_fits[0], t->accepted, t->ordered, t->touched,
        t->nearest.lists);
}

/* Answers whether each refusal occurred. */
static bool print_refusals(const struct tally *t)
{
    bool all = true;
    for (unsigned i = 1; i <= REFUSALS; i++) {
        printf("%s%2u: %-7" PRIu64 "%s", i % 10 == 1 ? "  " : " ", i, t->by_number[i], i % 10 == 0 || i == REFUSALS ? "\n" : "");
        all = all && t->by_number[i] > 0;
    }
    return all;
}

/* 14 is refused for a table of shares, for the three lists of touching and for that of nearest. Answers whether each of the three was too
 * short. */
static bool print_short_lists(const struct tally *t)
{
    printf("lists of touching too short: open %" PRIu64 ", inside %" PRIu64 ", steps %" PRIu64 "\n", t->too_short[PAPER_OPEN],
        t->too_short[PAPER_INSIDE], t->too_short[PAPER_STEPS]);
    return t->too_short[PAPER_OPEN] > 0 && t->too_short[PAPER_INSIDE] > 0 && t->too_short[PAPER_STEPS] > 0;
}

/* Answers whether marks cut intervals, up to as many intervals and as many open pairs as there can be. */
static bool print_cut_plans(const struct tally *t)
{
    printf("plans with a mark as a bound: %" PRIu64 ", with %d intervals %" PRIu64 ", with %d open pairs %" PRIu64 "\n", t->cut, PAPER_INTERVALS,
        t->most_intervals, PAPER_PAIRS, t->most_pairs);
    return t->cut > 0 && t->most_intervals > 0 && t->most_pairs > 0;
}

/* Answers whether plans were as long as they may be, and whether they went into buffers too short for a step in each open pair. */
static bool print_short_plans(const struct short_tally *t)
{
    printf("plans with jobs + intervals - 1 steps, fewer than open pairs: %" PRIu64 ", with as many steps as open pairs, fewer than that: %" PRIu64
        ", with %d steps: %" PRIu64 "; in buffers too short for all open pairs: %" PRIu64 "\n",
        t->at_limit, t->at_pairs, PAPER_STEPS_PLANNED, t->most_steps, t->spared);
    return t->at_limit > 0 && t->at_pairs > 0 && t->most_steps > 0 && t->spared > 0;
}

/* Answers whether sites were altered by each parameter and in each operation, and whether 36 had each of its reasons. */
static bool print_altered(const struct altered_tally *t)
{
    printf("altered sites: by fewer levels %" PRIu64 ", by free ticks %" PRIu64 ", by a margin %" PRIu64 "; plans %" PRIu64 ", accepted %" PRIu64
        ", ordered %" PRIu64 ", touched %" PRIu64 ", listed %" PRIu64 "; jobs refused by an emptied window %" PRIu64
        ", by too many cycles %" PRIu64 "\n",
        t->fewer_levels, t->free_ticks, t->margins, t->plans, t->accepted, t->ordered, t->touched, t->nearest, t->emptied,
        t->too_many_cycles);
    return t->fewer_levels > 0 && t->free_ticks > 0 && t->margins > 0 && t->plans > 0 && t->accepted > 0 && t->ordered > 0 && t->touched > 0
        && t->nearest > 0 && t->emptied > 0 && t->too_many_cycles > 0;
}

/* Answers whether lists were of every kind, and whether sets were without one for both reasons. */
static bool print_nearest(const struct nearest_tally *t)
{
    printf("lists of most cycles: %" PRIu64 ", with equal numbers %" PRIu64 ", with some at 0 %" PRIu64
        ", with a job below its own window's spare %" PRIu64 ", of %d jobs %" PRIu64
        "; no list of an overfull set %" PRIu64 ", a list too short %" PRIu64 "\n",
        t->lists, t->equal, t->some_full, t->other_window, PAPER_JOBS, t->most_jobs, t->overfull, t->too_short);
    return t->equal > 0 && t->some_full > 0 && t->other_window > 0 && t->most_jobs > 0 && t->overfull > 0 && t->too_short > 0;
}

/* Of levels, jobs, marks and parameters, and 15 to 20. */
static bool is_of_fits(unsigned number)
{
    return (1 <= number && number <= 10) || (15 <= number && number <= 20) || number == 31 || number == 32
        || (34 <= number && number <= 36);
}

/* Answers whether each refusal of a plan without prices occurred, and whether plans that fit were least and not. */
static bool print_fitting(const struct tally *t)
{
    bool all = t->by_fits[0] > 0 && t->least > 0 && t->dearer > 0;
    printf("whether a plan fits: %" PRIu64 " do, refused by number", t->by_fits[0]);
    for (unsigned i = 1; i <= REFUSALS; i++)
        if (is_of_fits(i)) {
            printf(" %u: %" PRIu64, i, t->by_fits[i]);
            all = all && t->by_fits[i] > 0;
        }
    printf("\nplans that fit tiny sites: %" PRIu64 " least, %" PRIu64 " dearer\n", t->least, t->dearer);
    return all;
}

static int run(uint64_t calls)
{
    for (case_number = 0; total().calls < calls; case_number++)
        one_case();
    struct tally all = total();
    for (unsigned g = 0; g < GROUPS; g++)
        print_line(groups[g].name, &groups[g].tally);
    print_line("all", &all);
    printf("refusals by number:\n");
    bool each = print_refusals(&all);
    each = print_short_lists(&all) && each;
    if (!print_fitting(&all)) {
        printf("load: the plans without prices were not of every kind\n");
        return 1;
    }
    if (!print_altered(&all.altered)) {
        printf("load: the altered sites were not of every kind\n");
        return 1;
    }
    if (!print_cut_plans(&all)) {
        printf("load: no plan with marks was as large as there can be\n");
        return 1;
    }
    if (!print_short_plans(&all.short_plans)) {
        printf("load: the short plans were not of every kind\n");
        return 1;
    }
    if (!print_nearest(&all.nearest)) {
        printf("load: the lists of most cycles were not of every kind\n");
        return 1;
    }
    if (!each) {
        printf("load: a refusal never occurred\n");
        return 1;
    }
    printf("load: every answer agrees with documents 01 and 02\n");
    return 0;
}

static uint64_t number_in(const char *text)
{
    return strtoull(text, NULL, 10);
}

int main(int count, char **words)
{
    bool single = count == 4 && strcmp(words[1], "--case") == 0;
    if (!single && count > 3) {
        fprintf(stderr, "driver [SEED [CALLS]] or driver --case SEED NUMBER\n");
        return 2;
    }
    on_disagreement = stop;
    catch_signals();
    compare_start();
    if (single) {
        seed = number_in(words[2]);
        case_number = number_in(words[3]);
        one_case();
        printf("case %" PRIu64 " of seed %" PRIu64 " agrees\n", case_number, seed);
        return 0;
    }
    seed = count > 1 ? number_in(words[1]) : 1;
    return run(count > 2 ? number_in(words[2]) : 1000000);
}
