#include "change.h"

static unsigned any_step(struct numbers *numbers, const struct plan *plan)
{
    return (unsigned)below(numbers, plan->steps);
}

static void remove_step(struct plan *plan, unsigned s)
{
    plan->steps--;
    plan->cell[s] = plan->cell[plan->steps];
    plan->cycles[s] = plan->cycles[plan->steps];
}

/* Another interval, another job, another step's cell, a job or interval that the site does not have, any cell. */
static void change_cell(struct numbers *numbers, const struct paper_site *site, struct plan *plan)
{
    unsigned s = any_step(numbers, plan), other = any_step(numbers, plan), cell = plan->cell[s], n = site->intervals.count;
    plan->cell[s] = (uint16_t)ONE_OF(numbers, cell + 64, cell - 64, cell + 1, cell - 1, plan->cell[other],
        cell / 64 * 64 + site->jobs.count, n * 64 + cell % 64, any_number(numbers));
}

static void change_cycles(struct numbers *numbers, const struct paper_site *site, struct plan *plan)
{
    unsigned s = any_step(numbers, plan);
    unsigned job = plan->cell[s] % 64;
    uint64_t cycles = plan->cycles[s], whole = site->jobs.cycles[job], given = site->given.jobs.cycles[job];
    plan->cycles[s] = (uint32_t)ONE_OF(numbers, 0, cycles + 1, cycles - 1, whole, whole + 1, given, UINT32_MAX, any_number(numbers));
}

static void swap_cells(struct plan *plan, unsigned a, unsigned b)
{
    uint16_t cell = plan->cell[a];
    plan->cell[a] = plan->cell[b];
    plan->cell[b] = cell;
}

static void swap_steps(struct plan *plan, unsigned a, unsigned b)
{
    uint32_t cycles = plan->cycles[a];
    swap_cells(plan, a, b);
    plan->cycles[a] = plan->cycles[b];
    plan->cycles[b] = cycles;
}

static void turn_round(struct plan *plan)
{
    for (unsigned s = 0; s < plan->steps / 2; s++)
        swap_steps(plan, s, plan->steps - 1 - s);
}

static void shuffle(struct numbers *numbers, struct plan *plan)
{
    for (unsigned left = plan->steps; left > 1; left--)
        swap_steps(plan, left - 1, (unsigned)below(numbers, left));
}

/* The step of this cell, or the number of steps. */
static unsigned find(const struct plan *plan, unsigned cell)
{
    unsigned s = 0;
    while (s < plan->steps && plan->cell[s] != cell)
        s++;
    return s;
}

static void give(struct plan *plan, unsigned cell, uint32_t part)
{
    unsigned s = find(plan, cell);
    if (s < plan->steps)
        plan->cycles[s] += part;
    else
        plan_add_step(plan, cell / 64, cell % 64, part);
}

static void take(struct plan *plan, unsigned cell, uint32_t part)
{
    unsigned s = find(plan, cell);
    plan->cycles[s] -= part;
    if (plan->cycles[s] == 0)
        remove_step(plan, s);
}

void move_part(struct plan *plan, unsigned cell, unsigned to, uint32_t part)
{
    give(plan, to * 64 + cell % 64, part);
    take(plan, cell, part);
}

/* Any interval but this one where the job is open, or this one where there is no other. */
static unsigned another_open(struct numbers *numbers, const struct paper_site *site, unsigned interval, unsigned job)
{
    unsigned n = site->intervals.count, first = (unsigned)below(numbers, n);
    for (unsigned i = 0; i < n; i++) {
        unsigned at = (first + i) % n;
        if (at != interval && paper_open(&site->intervals, at, job))
            return at;
    }
    return interval;
}

/* Moves cycles of a step to another interval where its job is open. The job's sum stays. */
static void move_cycles(struct numbers *numbers, const struct paper_site *site, struct plan *plan)
{
    unsigned s = any_step(numbers, plan), cell = plan->cell[s];
    if (site->intervals.count == 0 || plan->cycles[s] == 0)
        return;
    unsigned to = another_open(numbers, site, cell / 64, cell % 64);
    uint32_t part = (uint32_t)ONE_OF(numbers, 1, plan->cycles[s], between(numbers, 1, plan->cycles[s]));
    if (to != cell / 64)
        move_part(plan, cell, to, part);
}

/* Exchanges cycles of two jobs between two intervals, so that all loads and sums stay. */
static void exchange_cycles(struct numbers *numbers, const struct paper_site *site, struct plan *plan)
{
    unsigned a = any_step(numbers, plan), b = any_step(numbers, plan);
    unsigned a_cell = plan->cell[a], b_cell = plan->cell[b], a_job = a_cell % 64, b_job = b_cell % 64, a_at = a_cell / 64, b_at = b_cell / 64;
    uint32_t most = plan->cycles[a] < plan->cycles[b] ? plan->cycles[a] : plan->cycles[b];
    bool apart = a_job != b_job && a_at != b_at;
    if (!apart || !paper_open(&site->intervals, b_at, a_job) || !paper_open(&site->intervals, a_at, b_job) || most == 0)
        return;
    uint32_t part = (uint32_t)ONE_OF(numbers, 1, most, between(numbers, 1, most));
    give(plan, b_at * 64 + a_job, part);
    give(plan, a_at * 64 + b_job, part);
    take(plan, a_cell, part);
    take(plan, b_cell, part);
}

void change_order(struct numbers *numbers, struct plan *plan)
{
    switch (plan->steps > 0 ? below(numbers, 6) : 0) {
    case 0:
        turn_round(plan);
        break;
    case 1:
        swap_steps(plan, any_step(numbers, plan), any_step(numbers, plan));
        break;
    default:
        shuffle(numbers, plan);
    }
}

void change_shares(struct numbers *numbers, const struct paper_site *site, struct plan *plan)
{
    if (plan->steps == 0)
        return;
    if (one_in(numbers, 2))
        exchange_cycles(numbers, site, plan);
    else
        move_cycles(numbers, site, plan);
}

void change_sums(struct numbers *numbers, struct plan *plan)
{
    for (unsigned s = plan->steps; s-- > 0;)
        if (one_in(numbers, 4))
            remove_step(plan, s);
        else if (one_in(numbers, 3))
            plan->cycles[s] = (uint32_t)ONE_OF(numbers, 1, plan->cycles[s], between(numbers, 1, plan->cycles[s]));
}

/* Puts the same step at the end again: once, or as often as a step count can say. */
static void repeat_step(struct numbers *numbers, struct plan *plan)
{
    unsigned s = any_step(numbers, plan), times = one_in(numbers, 64) ? 65535 : 1;
    while (times-- > 0)
        plan_add_step(plan, plan->cell[s] / 64, plan->cell[s] % 64, plan->cycles[s]);
}

/* One more, one less, the same in the low byte, or any number. */
static void change_intervals(struct numbers *numbers, struct plan *plan)
{
    uint64_t n = plan->intervals;
    plan->intervals = (uint16_t)ONE_OF(numbers, n + 1, n - 1, n + 256, 0, PAPER_INTERVALS, any_number(numbers));
}

static void change_step(struct numbers *numbers, const struct paper_site *site, struct plan *plan)
{
    switch (below(numbers, 10)) {
    case 0:
        change_cell(numbers, site, plan);
        break;
    case 1:
        change_cycles(numbers, site, plan);
        break;
    case 2:
        change_order(numbers, plan);
        break;
    case 3:
        swap_cells(plan, any_step(numbers, plan), any_step(numbers, plan));
        break;
    case 4:
        exchange_cycles(numbers, site, plan);
        break;
    case 5:
        change_intervals(numbers, plan);
        break;
    case 6:
        remove_step(plan, any_step(numbers, plan));
        break;
    case 7:
        repeat_step(numbers, plan);
        break;
    default:
        move_cycles(numbers, site, plan);
    }
}

/* A plan without steps gets one. */
void change_plan(struct numbers *numbers, const struct paper_site *site, struct plan *plan)
{
    if (plan->steps > 0)
        change_step(numbers, site, plan);
    else
        plan_add_step(plan, 0, (unsigned)below(numbers, 2), 1);
}

void change_prices(struct numbers *numbers, const struct paper_site *site, struct prices *prices)
{
    if (prices->intervals == 0)
        return;
    unsigned i = (unsigned)below(numbers, prices->intervals), other = (unsigned)below(numbers, prices->intervals);
    uint64_t end = prices->end[i], given_end = end + site->given.parameters.free_ticks, price = prices->price[i], m = site->points.m;
    switch (below(numbers, 4)) {
    case 0:
        prices->end[i] = (uint32_t)ONE_OF(numbers, end + 1, end - 1, 0, prices->end[other], given_end, UINT32_MAX, any_number(numbers));
        break;
    case 1:
        prices->price[i] = prices->price[other];
        prices->price[other] = (uint8_t)price;
        break;
    default:
        prices->price[i] = (uint8_t)ONE_OF(numbers, price + 1, price + 1, price - 1, 0, 1, m, m + 1, 255);
    }
}

void change_either(struct numbers *numbers, const struct paper_site *site, struct plan *plan, struct prices *prices)
{
    for (unsigned changes = (unsigned)ONE_OF(numbers, 0, 1, 1, 1, 1, 2); changes > 0; changes--)
        if (one_in(numbers, 3))
            change_prices(numbers, site, prices);
        else
            change_plan(numbers, site, plan);
}
