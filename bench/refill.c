#include "refill.h"

#include <string.h>

/* Bounds are gone through in blocks of a fixed size, which the compiler turns into few instructions. A block may begin before the bounds
 * that are meant. Those there are passed, and have so many cycles, less all that are ever taken from them, that they are never least:
 * all jobs together have at most 1,000,000,000. */
enum { BLOCK = 8, PASSED = INT32_MAX };

/* What is still to be placed. `cross` has for each bound the cycles that jobs with a later deadline must still get before it. A bound
 * with none is closed: no job that ends after it gets any more before it. */
struct rest {
    int32_t left[JOBS], padded[BLOCK + BOUNDS];
    int32_t *cross;       /* `padded` after its first block */
    uint64_t finished;    /* the jobs with all their cycles, as a set */
    int closed;           /* a closed bound after the interval that is filled */
    uint8_t link[BOUNDS]; /* for a bound that was made `closed`, what `closed` was then */
};

/* Before a bound run the cycles of the jobs that end by then, and those that cross it. */
static void start(const struct work *w, const uint64_t *loads, struct rest *r)
{
    r->cross = r->padded + BLOCK;
    for (int k = 0; k < BLOCK; k++)
        r->padded[k] = PASSED;
    memset(r->cross, 0, sizeof *r->cross * (w->intervals + 1));
    for (int j = 0; j < w->jobs; j++) {
        r->left[j] = w->cycles[j];
        r->cross[w->last[j]] += r->left[j];
    }
    int32_t sum = 0;
    for (int b = 1; b <= w->intervals; b++)
        r->cross[b] = sum += (int32_t)loads[b - 1] - r->cross[b];
    r->finished = 0;
    r->closed = w->intervals;
}

static void close_bound(struct rest *r, int bound)
{
    r->link[bound] = r->closed;
    r->closed = bound;
}

/* The least of the bounds after the start of an interval and before an end. */
static int32_t least_cross(const int32_t *cross, int interval, int end)
{
    int32_t low[BLOCK], least = PASSED;
    for (int k = 0; k < BLOCK; k++)
        low[k] = PASSED;
    for (int b = end - BLOCK; b > interval - BLOCK; b -= BLOCK)
        for (int k = 0; k < BLOCK; k++)
            low[k] = cross[b + k] < low[k] ? cross[b + k] : low[k];
    for (int k = 0; k < BLOCK; k++)
        least = low[k] < least ? low[k] : least;
    return least;
}

static void lower_cross(int32_t *cross, int interval, int end, int32_t amount)
{
    for (int b = end - BLOCK; b > interval - BLOCK; b -= BLOCK)
        for (int k = 0; k < BLOCK; k++)
            cross[b + k] -= amount;
}

/* A job gets what it has left, or as much as closes a bound. */
static int32_t give(struct rest *r, int interval, int end, int job)
{
    int32_t amount = r->left[job];
    if (interval + 1 < end) {
        int32_t least = least_cross(r->cross, interval, end);
        if (least < amount) {
            int bound = interval + 1;
            while (r->cross[bound] > least)
                bound++;
            close_bound(r, bound);
            amount = least;
        }
        if (amount > 0)
            lower_cross(r->cross, interval, end, amount);
    }
    r->left[job] -= amount;
    return amount;
}

/* Shares that stood there and are not filled again become 0. */
static void fill_interval(const struct work *w, struct rest *r, int interval, uint32_t *shares, uint64_t *holders)
{
    uint64_t able = w->open[interval] & ~w->open[r->closed] & ~r->finished, held = 0;
    while (able > 0) {
        int j = __builtin_ctzll(able);
        uint64_t one = able & -able;
        int32_t amount = give(r, interval, w->last[j], j);
        able &= ~one & ~w->open[r->closed];
        if (amount == 0)
            continue;
        shares[j] = amount;
        held |= one;
        if (r->left[j] == 0)
            r->finished |= one;
    }
    for (uint64_t empty = *holders & ~held; empty > 0; empty &= empty - 1)
        shares[__builtin_ctzll(empty)] = 0;
    *holders = held;
}

void refill(const struct work *w, const uint64_t *loads, uint32_t *shares, uint64_t *holders)
{
    struct rest r;
    start(w, loads, &r);
    for (int i = 0; i < w->intervals; i++) {
        r.cross[i] = PASSED;
        if (r.closed == i)
            r.closed = r.link[i];
        if (r.cross[i + 1] == 0 && r.closed > i + 1)
            close_bound(&r, i + 1);
        fill_interval(w, &r, i, shares + i * w->jobs, &holders[i]);
    }
}
