/* A site of the benchmark, and the same site as a minimum-cost flow for the general solvers. */
#ifndef SITE_H
#define SITE_H

#include <stddef.h>
#include <stdint.h>

#ifdef __cplusplus
extern "C" {
#endif

enum { MAX_JOBS = 64, MAX_LEVELS = 8, MAX_MARKS = 8, MAX_BOUNDS = 2 * MAX_JOBS + MAX_MARKS, MAX_INTERVALS = MAX_BOUNDS - 1 };
enum { MAX_PAIRS = MAX_JOBS * (MAX_JOBS + MAX_MARKS), MAX_DEADLINE = 1000000 };

struct site {
    const char *family;
    int jobs, levels, marks, seed;
    uint32_t release[MAX_JOBS], deadline[MAX_JOBS], cycles[MAX_JOBS];
    uint32_t frequency[MAX_LEVELS], voltage[MAX_LEVELS], mark[MAX_MARKS];
    uint8_t level_bytes[2 + 4 * MAX_LEVELS], job_bytes[2 + 12 * MAX_JOBS], mark_bytes[2 + 4 * MAX_MARKS];
    size_t level_length, job_length, mark_length;
};

/* Source -> job -> open interval -> one arc for each band -> sink. The arc of band k from interval i holds
 * size[i] * gap[k] cycles. Its cost per cycle is rise[k] / gap[k], or price[k] when multiplied by scale. */
struct network {
    int jobs, intervals, bands, pairs;
    int first[MAX_JOBS], last[MAX_JOBS];
    int64_t cycles[MAX_JOBS], size[MAX_INTERVALS];
    int64_t lower[MAX_LEVELS], gap[MAX_LEVELS], rise[MAX_LEVELS], price[MAX_LEVELS], scale;
};

/* The cycles that each band takes over all intervals. They are the same in every optimal flow. */
struct totals {
    int64_t band[MAX_LEVELS];
};

extern const char *const families[];
extern const int family_count;

/* Without marks. */
void make_site(struct site *site, int family, int jobs, int seed);
/* Gives a site as many marks as there can be, at even distances. */
void set_marks(struct site *site);
/* Copies a plan with its steps in an order that hangs on their number alone. */
void mix_steps(uint8_t *mixed, const uint8_t *plan, int steps);
/* The site, the plan and the prices with the most steps that there can be: each window inside the one before, the marks in the last of
 * them, and a step for each of the 4,608 pairs. */
void make_longest(struct site *site, uint8_t *plan, uint8_t *prices);
void make_network(struct network *network, const struct site *site);

/* The exact energy multiplied by the network's scale, and the reported figure. */
__extension__ typedef __int128 wide;
wide exact_energy(const struct network *network, const struct totals *totals);
int64_t energy_figure(const struct network *network, const struct totals *totals);

#ifdef __cplusplus
}
#endif

#endif
