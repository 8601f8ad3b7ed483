/* A plan with its steps in cell order: the check's refusals, then 12 for a short buffer. */
#include <stdlib.h>
#include <string.h>

#include "paper.h"

/* The most that an accepted plan has: no cell is there twice. */
enum { STEPS = PAPER_INTERVALS * PAPER_JOBS };

static int by_cell(const void *a, const void *b)
{
    const struct paper_step *x = a, *y = b;
    return (x->cell > y->cell) - (x->cell < y->cell);
}

static void put(uint8_t *at, unsigned width, uint32_t number)
{
    for (unsigned i = 0; i < width; i++)
        at[i] = (uint8_t)(number >> (8 * i));
}

static void sort_steps(struct paper_bytes plan, unsigned steps, struct paper_step *sorted)
{
    for (unsigned s = 0; s < steps; s++)
        sorted[s] = paper_step(plan, s);
    if (steps > 0)
        qsort(sorted, steps, sizeof *sorted, by_cell);
}

/* The plan's own N and S, then all cells, then all cycles. */
static void write_ordered(struct paper_bytes plan, uint8_t *ordered)
{
    struct paper_step sorted[STEPS];
    unsigned steps = paper_step_count(plan);
    sort_steps(plan, steps, sorted);
    memcpy(ordered, plan.at, 4);
    for (unsigned s = 0; s < steps; s++) {
        put(ordered + 4 + 2 * s, 2, sorted[s].cell);
        put(ordered + 4 + 2 * steps + 4 * s, 4, sorted[s].cycles);
    }
}

/* Number 0: the bytes that must be written are put there, as many as the plan has. */
struct ramyearly_order_answer paper_order(struct paper_tables tables, struct paper_bytes plan, struct paper_bytes prices, size_t ordered_length,
    uint8_t ordered[PAPER_PLAN])
{
    struct ramyearly_check_answer checked = paper_check(tables, plan, prices);
    if (checked.number)
        return (struct ramyearly_order_answer) { .number = checked.number, .place = checked.place };
    if (ordered_length < plan.length)
        return (struct ramyearly_order_answer) { .number = 12, .place = (uint32_t)plan.length };
    write_ordered(plan, ordered);
    return (struct ramyearly_order_answer) { .length = (uint32_t)plan.length };
}

static void take_shares(struct paper_bytes plan, uint32_t shares[STEPS])
{
    memset(shares, 0, STEPS * sizeof *shares);
    for (unsigned s = 0; s < paper_step_count(plan); s++)
        shares[paper_step(plan, s).cell] = paper_step(plan, s).cycles;
}

/* Whether every job has the same cycles in every interval, by two accepted plans for one job table and the same marks, free ticks and margin. */
bool paper_same_shares(struct paper_bytes plan, struct paper_bytes other)
{
    uint32_t shares[STEPS], others[STEPS];
    take_shares(plan, shares);
    take_shares(other, others);
    return memcmp(shares, others, sizeof shares) == 0;
}
