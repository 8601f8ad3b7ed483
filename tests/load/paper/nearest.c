/* The job nearest to trouble: the refusals of the spare, 11 for a set that is overfull, then 14; and how many cycles each job can have more.
 * No window is looked at for that: the jobs are run at the top frequency, and what is done of them is counted. */
#include <stdlib.h>

#include "paper.h"

/* A job, and the most cycles that can be added to it. */
struct room {
    uint32_t job, most;
};

/* Smallest first, then by job number. */
static int by_room(const void *a, const void *b)
{
    const struct room *x = a, *y = b;
    if (x->most != y->most)
        return x->most < y->most ? -1 : 1;
    return x->job < y->job ? -1 : 1;
}

/* The jobs of a site by deadline. */
struct by_deadline {
    unsigned job[PAPER_JOBS];
};

static struct by_deadline by_deadline(const struct paper_jobs *jobs)
{
    struct by_deadline order;
    for (unsigned j = 0; j < jobs->count; j++) {
        unsigned at = j;
        for (; at > 0 && jobs->deadline[order.job[at - 1]] > jobs->deadline[j]; at--)
            order.job[at] = order.job[at - 1];
        order.job[at] = j;
    }
    return order;
}

/* Runs the jobs at the top frequency, of those that are open the one with the earliest deadline first. Answers how many cycles are done in
 * time; no schedule does more. */
static uint64_t done_in_time(const struct paper_site *site, const struct by_deadline *order, uint64_t left[PAPER_JOBS])
{
    uint64_t done = 0;
    for (unsigned i = 0; i < site->intervals.count; i++) {
        uint64_t idle = paper_length(&site->intervals, i) * paper_top(&site->levels);
        for (unsigned at = 0; at < site->jobs.count && idle > 0; at++) {
            unsigned j = order->job[at];
            if (left[j] > 0 && paper_open(&site->intervals, i, j)) {
                uint64_t part = left[j] < idle ? left[j] : idle;
                left[j] -= part;
                idle -= part;
                done += part;
            }
        }
    }
    return done;
}

/* Of a set that fits: the job gets more cycles than can be done at all. What is then done beyond the cycles of the set is the most. */
static uint32_t most_added(const struct paper_site *site, const struct by_deadline *order, unsigned job)
{
    uint64_t cycles[PAPER_JOBS], all = 0;
    for (unsigned j = 0; j < site->jobs.count; j++) {
        cycles[j] = site->jobs.cycles[j];
        all += cycles[j];
    }
    cycles[job] += (uint64_t)PAPER_TIME * PAPER_FREQUENCY;
    return (uint32_t)(done_in_time(site, order, cycles) - all);
}

/* Whether the page's window test says the same: with so many cycles added no window is overfull, and with one more some window is. */
bool paper_is_most(const struct paper_site *site, unsigned job, uint32_t most)
{
    struct paper_site longer = *site;
    uint32_t start, end;
    longer.jobs.cycles[job] += most;
    if (paper_overfull(&longer, &start, &end))
        return false;
    longer.jobs.cycles[job]++;
    return paper_overfull(&longer, &start, &end);
}

static void write_list(const struct paper_site *site, uint32_t list[2 * PAPER_JOBS])
{
    struct room rooms[PAPER_JOBS];
    struct by_deadline order = by_deadline(&site->jobs);
    unsigned count = site->jobs.count;
    for (unsigned j = 0; j < count; j++)
        rooms[j] = (struct room) { j, most_added(site, &order, j) };
    if (count > 0)
        qsort(rooms, count, sizeof *rooms, by_room);
    for (unsigned i = 0; i < count; i++) {
        list[2 * i] = rooms[i].job;
        list[2 * i + 1] = rooms[i].most;
    }
}

/* A site of levels and jobs alone: no marks are read. */
struct paper_refusal paper_read_unmarked(struct paper_tables tables, struct paper_site *site)
{
    static const uint8_t no_marks[2] = { 0, 0 };
    tables.marks = (struct paper_bytes) { no_marks, sizeof no_marks };
    return paper_read_site(tables, site);
}

/* Number 0: the numbers that must be written are put in the list, as many as the answer says. */
struct ramyearly_nearest_answer paper_nearest(struct paper_tables tables, size_t list_length, uint32_t list[2 * PAPER_JOBS])
{
    struct paper_site site;
    struct paper_refusal refusal = paper_read_unmarked(tables, &site);
    uint32_t start, end;
    if (refusal.number)
        return (struct ramyearly_nearest_answer) { .number = refusal.number, .place = refusal.place };
    if (paper_overfull(&site, &start, &end))
        return (struct ramyearly_nearest_answer) { .number = 11, .start = start, .end = end, .spare = paper_spare_of(&site, start, end) };
    if (list_length < 2 * site.jobs.count)
        return (struct ramyearly_nearest_answer) { .number = 14, .place = 2 * site.jobs.count };
    write_list(&site, list);
    return (struct ramyearly_nearest_answer) { .length = 2 * site.jobs.count };
}
