/* The benchmark: times the proved functions and their peers on the same sites in the same run, and holds every optimum
 * against ours. Built WITH_BEFORE it also times planning and checking of an earlier commit, which are linked as before_plan and
 * before_check.
 *
 *   bench times            a line of comma-separated values for each site
 *   bench marked           the same for the largest sites with 8 handover marks
 *   bench longest          fitting, checking, ordering and touching by the plan with the most steps that there can be
 *   bench stack            the deepest stack of each function over all sites, and of rounds over its largest tables
 *   bench one FAMILY JOBS SEED      one call each, for counting instructions
 *   bench windows FAMILY JOBS SEED  the window test alone, for counting its instructions */
#define _GNU_SOURCE
#include "calls.h"
#include "peer.h"

#include <stdbool.h>
#include <stdio.h>
#include <stdlib.h>
#include <string.h>
#include <time.h>
#include <ucontext.h>

enum { SEEDS = 5, REPEATS = 7, SAMPLE = 100000 /* nanoseconds */, STACK = 1 << 20 };

static const int sizes[] = { 1, 2, 4, 8, 16, 32, 64 };
enum { SIZES = sizeof sizes / sizeof *sizes };

static const struct peer *const peers[] = {
#ifdef WITH_LEMON
    &lemon_peer,
#endif
#ifdef WITH_GLPK
    &glpk_peer,
#endif
#ifdef WITH_CLP
    &clp_peer,
#endif
    NULL
};
enum { PEERS = sizeof peers / sizeof *peers - 1 };

static void nothing(void)
{
}

/* Processor time of this thread, in nanoseconds: what else runs on the machine does not count. */
static double now(void)
{
    struct timespec t;
    clock_gettime(CLOCK_THREAD_CPUTIME_ID, &t);
    return (double)t.tv_sec * 1e9 + (double)t.tv_nsec;
}

static double time_calls(void (*call)(void), long count)
{
    double start = now();
    for (long i = 0; i < count; i++)
        call();
    return now() - start;
}

/* Solving alone. */
static double time_solving(const struct peer *peer, long count)
{
    double sum = 0, start = now();
    for (long i = 0; i < count; i++) {
        if (peer->reset) {
            peer->reset();
            start = now();
        }
        if (!peer->solve())
            wrong(peer->name, "no optimum");
        if (peer->reset)
            sum += now() - start;
    }
    return peer->reset ? sum : now() - start;
}

/* Building the model, solving it, and giving it back. */
static double time_whole(const struct peer *peer, long count)
{
    double start = now();
    for (long i = 0; i < count; i++) {
        peer->load(&network);
        if (peer->reset)
            peer->reset();
        if (!peer->solve())
            wrong(peer->name, "no optimum");
        peer->unload();
    }
    return now() - start;
}

/* One thing that is timed: a call of ours, or a peer, which is timed by a function of its own. */
struct timed {
    void (*call)(void);
    double (*by)(const struct peer *peer, long count);
    const struct peer *peer;
    long count; /* calls in a sample */
    double samples[REPEATS];
};

static double sample(const struct timed *t, long count)
{
    return t->peer ? t->by(t->peer, count) : time_calls(t->call, count);
}

static void choose_count(struct timed *t)
{
    t->count = 1;
    while (sample(t, t->count) < SAMPLE)
        t->count *= 2;
}

static int by_size(const void *a, const void *b)
{
    double x = *(const double *)a, y = *(const double *)b;
    return (x > y) - (x < y);
}

static double median(double *samples)
{
    qsort(samples, REPEATS, sizeof *samples, by_size);
    return samples[REPEATS / 2];
}

/* Whether a peer, after its last run, has our optimum. */
static void compare(const struct peer *peer)
{
    struct totals t = { { 0 } };
    peer->answer(&t);
    same_optimum(peer->name, &t);
}

/* Samples are taken in turns, so that what slows the machine slows all. */
static void take_samples(struct timed *timed, int count)
{
    for (int k = 0; k < count; k++)
        choose_count(&timed[k]);
    for (int r = 0; r < REPEATS; r++)
        for (int k = 0; k < count; k++)
            timed[k].samples[r] = sample(&timed[k], timed[k].count) / (double)timed[k].count;
}

struct named {
    const char *name;
    void (*call)(void);
};

/* Our functions and the plain planner, in the order of their columns: what is compared stands side by side. The last four take the
 * plan with its steps mixed, and the last two are functions from above; so is the window test. */
static const struct named calls[] = {
    { "plan", call_plan },
#ifdef WITH_BEFORE
    { "plan before", call_plan_before }, { "check before", call_check_before },
#endif
    { "check", call_check }, { "fits", call_fits }, { "setting", call_settings }, { "spare", call_spare }, { "plain", call_plain },
    { "nearest", call_nearest }, { "windows", call_windows },
    { "touching", call_touching }, { "order", call_order }, { "check mixed", call_check_mixed }, { "fits mixed", call_fits_mixed }
};
enum { CALLS = sizeof calls / sizeof *calls, MIXED = CALLS - 4, AGAIN = CALLS - 2 };

/* Whether it is a function from above. */
static bool is_again(int k)
{
    return k >= AGAIN || calls[k].call == call_windows;
}

/* Has the calls timed, all of them or only the last. */
static void set_calls(struct timed *timed, int from)
{
    for (int k = from; k < CALLS; k++)
        timed[k - from].call = calls[k].call;
}

static void print_calls(int from)
{
    for (int k = from; k < CALLS; k++)
        printf(",%s", calls[k].name);
}

static void time_site(void)
{
    enum { SOLVING = CALLS, WHOLE = CALLS + PEERS, ALL = CALLS + 2 * PEERS };
    struct timed timed[ALL] = { { 0 } };
    test_windows();
    set_calls(timed, 0);
    for (int p = 0; p < PEERS; p++) {
        timed[SOLVING + p] = (struct timed){ .by = time_solving, .peer = peers[p] };
        timed[WHOLE + p] = (struct timed){ .by = time_whole, .peer = peers[p] };
        peers[p]->load(&network);
    }
    take_samples(timed, WHOLE);
    for (int p = 0; p < PEERS; p++) {
        compare(peers[p]);
        peers[p]->unload();
    }
    take_samples(timed + WHOLE, PEERS);
    printf("%s,%d,%d,%d,%d,%d,%u", site.family, site.jobs, site.seed, network.intervals, network.pairs, network.bands, planned.steps);
    for (int k = 0; k < ALL; k++)
        printf(",%.1f", median(timed[k].samples) / (timed[k].call == call_settings ? planned.intervals : 1));
    printf("\n");
}

static void print_names(void)
{
    printf("family,jobs,seed,intervals,pairs,bands,steps");
    print_calls(0);
    for (int p = 0; p < PEERS; p++)
        printf(",%s", peers[p]->name);
    for (int p = 0; p < PEERS; p++)
        printf(",%s whole", peers[p]->name);
    printf("\n");
}

static void times(void)
{
    print_names();
    for (int family = 0; family < family_count; family++)
        for (int n = 0; n < SIZES; n++)
            for (int seed = 1; seed <= SEEDS; seed++) {
                open_site(family, sizes[n], seed);
                time_site();
                fflush(stdout);
            }
}

static void marked(void)
{
    print_names();
    for (int family = 0; family < family_count; family++)
        for (int seed = 1; seed <= SEEDS; seed++) {
            open_site(family, MAX_JOBS, seed);
            mark_site();
            time_site();
            fflush(stdout);
        }
}

static uint8_t stack[STACK];
static ucontext_t here, there;
static void (*on_stack)(void);

static void enter(void)
{
    on_stack();
}

/* Calls on a painted stack, and counts the bytes from its top to the deepest one changed. */
static long depth(void (*call)(void))
{
    memset(stack, 0xa5, sizeof stack);
    on_stack = call;
    getcontext(&there);
    there.uc_stack.ss_sp = stack;
    there.uc_stack.ss_size = sizeof stack;
    there.uc_link = &here;
    makecontext(&there, enter, 0);
    swapcontext(&here, &there);
    long untouched = 0;
    while (untouched < STACK && stack[untouched] == 0xa5)
        untouched++;
    return STACK - untouched;
}

static void stacks(void)
{
    long deepest[AGAIN] = { 0 };
    long empty = depth(nothing);
    open_tasks();
    long rounds = depth(call_rounds) - empty;
    for (int family = 0; family < family_count; family++)
        for (int n = 0; n < SIZES; n++)
            for (int seed = 1; seed <= SEEDS; seed++) {
                open_site(family, sizes[n], seed);
                for (int k = 0; k < AGAIN; k++) {
                    long d = depth(calls[k].call) - empty;
                    if (d > deepest[k])
                        deepest[k] = d;
                }
            }
    printf("function,bytes\n");
    for (int k = 0; k < AGAIN; k++)
        if (!is_again(k))
            printf("%s,%ld\n", calls[k].name, deepest[k]);
    printf("rounds,%ld\n", rounds);
}

static void longest(void)
{
    open_longest();
    struct timed timed[CALLS - MIXED] = { { 0 } };
    set_calls(timed, MIXED);
    take_samples(timed, CALLS - MIXED);
    printf("steps");
    print_calls(MIXED);
    printf("\n%u", planned.steps);
    for (int k = 0; k < CALLS - MIXED; k++)
        printf(",%.1f", median(timed[k].samples));
    printf("\n");
}

/* Opening a site calls each planner, each check, fitting, ordering, touching and nearest once. The window test is a call of planning, and
 * stands alone so that it is not counted with the other. */
static int one(void (*open)(int family, int jobs, int seed), char **words)
{
    int family = 0;
    while (family < family_count && strcmp(families[family], words[0]))
        family++;
    if (family == family_count)
        return 2;
    open(family, atoi(words[1]), atoi(words[2]));
    return 0;
}

int main(int count, char **words)
{
    if (count == 2 && !strcmp(words[1], "times"))
        times();
    else if (count == 2 && !strcmp(words[1], "marked"))
        marked();
    else if (count == 2 && !strcmp(words[1], "stack"))
        stacks();
    else if (count == 2 && !strcmp(words[1], "longest"))
        longest();
    else if (count == 5 && !strcmp(words[1], "one"))
        return one(open_site, words + 2);
    else if (count == 5 && !strcmp(words[1], "windows"))
        return one(open_windows, words + 2);
    else
        return 2;
    return 0;
}
