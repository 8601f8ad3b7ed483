/* The energy of loads: the figure that is reported, and the exact energy multiplied out. */
#include "paper.h"

/* Band k takes the cycles of the load above length x f_(k-1), up to length x gap. */
static uint64_t band_cycles(const struct paper_points *points, unsigned k, uint64_t length, uint64_t load)
{
    uint64_t below = length * (uint64_t)points->frequency[k - 1], up_to = length * (uint64_t)points->frequency[k];
    if (load <= below)
        return 0;
    return (load < up_to ? load : up_to) - below;
}

/* A band's total over all intervals. */
static uint64_t band_total(const struct paper_site *site, const struct paper_loads *loads, unsigned k)
{
    uint64_t total = 0;
    for (unsigned i = 0; i < site->intervals.count; i++)
        total += band_cycles(&site->points, k, paper_length(&site->intervals, i), loads->at[i]);
    return total;
}

static uint64_t gap(const struct paper_points *points, unsigned k)
{
    return (uint64_t)(points->frequency[k] - points->frequency[k - 1]);
}

static uint64_t power_step(const struct paper_points *points, unsigned k)
{
    return (uint64_t)(points->power[k] - points->power[k - 1]);
}

/* What idling would take from earliest release to latest deadline. These are the first bound and the last; without jobs
 * both are 0. */
static uint64_t idle_energy(const struct paper_site *site)
{
    uint64_t length = site->intervals.bound[site->intervals.count] - site->intervals.bound[0];
    return length * (uint64_t)site->points.power[0];
}

/* Each band's total energy rounded down, and added. A total is at most 1,000,000 x 1,000 cycles and a power step at most
 * 250,000,000, so nothing wraps. */
uint64_t paper_figure(const struct paper_site *site, const struct paper_loads *loads)
{
    uint64_t figure = idle_energy(site);
    for (unsigned k = 1; k <= site->points.m; k++)
        figure += band_total(site, loads, k) * power_step(&site->points, k) / gap(&site->points, k);
    return figure;
}

/* The product of all gaps. */
uint64_t paper_gaps(const struct paper_points *points)
{
    uint64_t product = 1;
    for (unsigned k = 1; k <= points->m; k++)
        product *= gap(points, k);
    return product;
}

/* The exact energy times all gaps, for small sites: on large ones it wraps. */
uint64_t paper_exact(const struct paper_site *site, const struct paper_loads *loads)
{
    uint64_t gaps = paper_gaps(&site->points), exact = idle_energy(site) * gaps;
    for (unsigned k = 1; k <= site->points.m; k++)
        exact += band_total(site, loads, k) * power_step(&site->points, k) * (gaps / gap(&site->points, k));
    return exact;
}

/* One interval, carried out: power by time, extra / gap ticks on level k and the remaining time on level k - 1, which may be
 * idling; or all of it idle. */
static uint64_t interval_carried_out(const struct paper_points *points, uint64_t length, uint64_t load)
{
    uint64_t gaps = paper_gaps(points);
    if (load == 0)
        return length * (uint64_t)points->power[0] * gaps;
    unsigned k = paper_band(points, length, load);
    uint64_t extra = load - length * (uint64_t)points->frequency[k - 1], rest = length * gap(points, k) - extra;
    return (extra * (uint64_t)points->power[k] + rest * (uint64_t)points->power[k - 1]) * (gaps / gap(points, k));
}

/* The energy times all gaps of the schedule that carries the loads out. It must be the exact one, and wraps alike. */
uint64_t paper_carried_out(const struct paper_site *site, const struct paper_loads *loads)
{
    uint64_t energy = 0;
    for (unsigned i = 0; i < site->intervals.count; i++)
        energy += interval_carried_out(&site->points, paper_length(&site->intervals, i), loads->at[i]);
    return energy;
}
