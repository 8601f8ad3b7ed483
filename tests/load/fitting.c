#include "fitting.h"

#include "change.h"

/* What is left in the interval below its length x top frequency. */
static uint64_t room_in(const struct paper_site *site, const struct plan *plan, unsigned interval)
{
    uint64_t room = paper_length(&site->intervals, interval) * paper_top(&site->levels);
    for (unsigned s = 0; s < plan->steps; s++)
        if (plan->cell[s] / 64 == interval)
            room -= plan->cycles[s];
    return room;
}

/* A step of another interval whose job is open in this one; or the number of steps. */
static unsigned movable_step(struct numbers *numbers, const struct paper_site *site, const struct plan *plan, unsigned interval)
{
    unsigned first = (unsigned)below(numbers, plan->steps);
    for (unsigned i = 0; i < plan->steps; i++) {
        unsigned s = (first + i) % plan->steps;
        if (plan->cell[s] / 64 != interval && paper_open(&site->intervals, interval, plan->cell[s] % 64))
            return s;
    }
    return plan->steps;
}

/* Moves up to so many cycles to the interval, of jobs that are open there. Answers how many there were. */
static uint64_t crowd(struct numbers *numbers, const struct paper_site *site, struct plan *plan, unsigned interval, uint64_t most)
{
    uint64_t moved = 0;
    while (moved < most) {
        unsigned s = movable_step(numbers, site, plan, interval);
        if (s == plan->steps)
            break;
        uint64_t part = plan->cycles[s] < most - moved ? plan->cycles[s] : most - moved;
        move_part(plan, plan->cell[s], interval, (uint32_t)part);
        moved += part;
    }
    return moved;
}

static unsigned any_interval(struct numbers *numbers, const struct paper_site *site)
{
    return (unsigned)below(numbers, site->intervals.count);
}

static struct paper_refusal in_another_order(struct numbers *numbers, const struct paper_site *site, struct plan *plan)
{
    (void)site;
    change_order(numbers, plan);
    return paper_refuse(0, 0);
}

static struct paper_refusal at_the_top(struct numbers *numbers, const struct paper_site *site, struct plan *plan)
{
    unsigned i = any_interval(numbers, site);
    crowd(numbers, site, plan, i, room_in(site, plan, i));
    return paper_refuse(0, 0);
}

static struct paper_refusal past_the_top(struct numbers *numbers, const struct paper_site *site, struct plan *plan)
{
    unsigned i = any_interval(numbers, site);
    uint64_t room = room_in(site, plan, i), moved = crowd(numbers, site, plan, i, room + 1);
    return moved > room ? paper_refuse(20, i) : paper_refuse(0, 0);
}

/* A step with a cycle more, or less, is refused by itself only where it then has more than its job or none. */
static struct paper_refusal sum_off(struct numbers *numbers, const struct paper_site *site, struct plan *plan)
{
    unsigned s = (unsigned)below(numbers, plan->steps), job = plan->cell[s] % 64;
    plan->cycles[s] += one_in(numbers, 2) ? 1 : UINT32_MAX;
    bool alone = plan->cycles[s] == 0 || plan->cycles[s] > site->jobs.cycles[job];
    return alone ? paper_refuse(18, s) : paper_refuse(19, job);
}

/* The step in two parts: all sums and loads stay. */
static struct paper_refusal cell_twice(struct numbers *numbers, const struct paper_site *site, struct plan *plan)
{
    unsigned s = (unsigned)below(numbers, plan->steps), cell = plan->cell[s];
    uint32_t part = plan->cycles[s] / 2;
    (void)site;
    if (part == 0)
        return paper_refuse(0, 0);
    plan->cycles[s] -= part;
    plan_add_step(plan, cell / 64, cell % 64, part);
    return paper_refuse(17, plan->steps - 1);
}

/* The first interval at or after a chosen one where the job is not open, the one after the last included. */
static struct paper_refusal cell_not_open(struct numbers *numbers, const struct paper_site *site, struct plan *plan)
{
    unsigned s = (unsigned)below(numbers, plan->steps), job = plan->cell[s] % 64, i = any_interval(numbers, site);
    while (paper_open(&site->intervals, i, job))
        i++;
    plan->cell[s] = (uint16_t)(i * 64 + job);
    return paper_refuse(17, s);
}

struct paper_refusal change_fitting(struct numbers *numbers, const struct paper_site *site, struct plan *plan)
{
    static struct paper_refusal (*const changes[])(struct numbers *, const struct paper_site *, struct plan *)
        = { in_another_order, at_the_top, at_the_top, past_the_top, past_the_top, sum_off, cell_twice, cell_not_open };
    if (plan->steps == 0)
        return paper_refuse(0, 0);
    return changes[below(numbers, sizeof changes / sizeof *changes)](numbers, site, plan);
}
