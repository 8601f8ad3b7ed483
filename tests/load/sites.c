#include "sites.h"

#include "marks.h"
#include "parameters.h"

static void add_level(struct paper_levels *levels, uint64_t frequency, uint64_t voltage)
{
    levels->frequency[levels->count] = (uint32_t)frequency;
    levels->voltage[levels->count] = (uint32_t)voltage;
    levels->count++;
}

/* Small steps: many levels are dropped, and many tests for dropping are equalities. Half of the tables have powers past
 * 1,000, and so room for a draw. */
static struct paper_levels close_levels(struct numbers *numbers, unsigned most, unsigned step)
{
    struct paper_levels levels = { .count = 0 };
    uint64_t count = between(numbers, 1, most), frequency = 0, voltage = between(numbers, 1, 3);
    if (one_in(numbers, 2))
        voltage += between(numbers, 31, 100);
    while (levels.count < count) {
        frequency += between(numbers, 1, step);
        voltage += below(numbers, 3);
        add_level(&levels, frequency, voltage);
    }
    return levels;
}

/* The two built-in tables, the level pair T, and two levels that both work only where idling draws power. */
static struct paper_levels known_levels(struct numbers *numbers)
{
    static const struct paper_levels known[] = {
        { .count = 5, .frequency = { 300, 400, 533, 667, 800 }, .voltage = { 90, 100, 110, 120, 130 } },
        { .count = 5, .frequency = { 300, 350, 400, 450, 500 }, .voltage = { 140, 150, 160, 170, 180 } },
        { .count = 2, .frequency = { 2, 4 }, .voltage = { 10, 20 } },
        { .count = 2, .frequency = { 100, 200 }, .voltage = { 10, 10 } },
    };
    return known[below(numbers, 4)];
}

/* Over the whole range; the last level is often the largest that is allowed. */
static struct paper_levels wide_levels(struct numbers *numbers)
{
    struct paper_levels levels = { .count = 0 };
    uint64_t count = between(numbers, 1, PAPER_LEVELS), frequency = 0, voltage = 1;
    while (levels.count < count) {
        uint64_t left = count - levels.count;
        bool largest = left == 1 && one_in(numbers, 2);
        frequency = largest ? PAPER_FREQUENCY : between(numbers, frequency + 1, frequency + (PAPER_FREQUENCY - frequency) / left);
        voltage = largest ? PAPER_VOLTAGE : between(numbers, voltage, voltage + (PAPER_VOLTAGE - voltage) / left);
        add_level(&levels, frequency, voltage);
    }
    return levels;
}

static struct paper_levels running_levels(struct numbers *numbers)
{
    switch (below(numbers, 4)) {
    case 0:
        return known_levels(numbers);
    case 1:
        return wide_levels(numbers);
    default:
        return close_levels(numbers, PAPER_LEVELS, 3);
    }
}

/* The largest draw that is below the first level's power, as far as 16 bits go. */
static uint64_t largest_draw(const struct paper_levels *levels)
{
    uint64_t largest = ((uint64_t)paper_power(levels, 0) - 1) / 1000;
    return largest < PAPER_DRAW ? largest : PAPER_DRAW;
}

struct paper_levels with_idling(struct numbers *numbers, struct paper_levels levels)
{
    uint64_t largest = largest_draw(&levels);
    if (levels.count == PAPER_LEVELS || one_in(numbers, 2))
        return levels;
    levels.idle_entry = true;
    levels.draw = (uint32_t)ONE_OF(numbers, 0, largest > 0, largest, largest, between(numbers, 0, largest));
    return levels;
}

struct paper_levels any_levels(struct numbers *numbers)
{
    return with_idling(numbers, running_levels(numbers));
}

bool is_large(struct numbers *numbers)
{
    return below(numbers, 16) == 15;
}

struct shape small_shape(struct numbers *numbers)
{
    struct shape shape = { .jobs = (unsigned)between(numbers, 0, 6) };
    if (one_in(numbers, 4))
        shape.horizon = (uint32_t)ONE_OF(numbers, 100, 1000, PAPER_TIME);
    else
        shape.horizon = (uint32_t)between(numbers, 1, 10);
    return shape;
}

static struct shape large_shape(struct numbers *numbers)
{
    struct shape shape = { .jobs = (unsigned)ONE_OF(numbers, 16, 32, 63, 64) };
    shape.horizon = (uint32_t)ONE_OF(numbers, 20, 200, 1000, PAPER_TIME);
    return shape;
}

/* The window of job j: any, the whole horizon, each inside the one before, or each a step later than the one before. The last
 * two have as many intervals and open pairs as jobs can have. */
static void set_window(struct numbers *numbers, struct shape shape, unsigned arrangement, struct paper_jobs *jobs, unsigned j)
{
    uint32_t half = shape.horizon / 2, step = half / shape.jobs * j;
    switch (arrangement) {
    case 0:
        jobs->deadline[j] = shape.horizon;
        break;
    case 1:
        jobs->release[j] = step;
        jobs->deadline[j] = shape.horizon - step;
        break;
    case 2:
        jobs->release[j] = step;
        jobs->deadline[j] = shape.horizon - half + step;
        break;
    default:
        jobs->release[j] = (uint32_t)below(numbers, shape.horizon);
        jobs->deadline[j] = (uint32_t)between(numbers, jobs->release[j] + 1, shape.horizon);
    }
}

/* Windows within the horizon, which sometimes ends at the latest deadline that is allowed. No cycles yet. */
static struct paper_jobs arranged_windows(struct numbers *numbers, struct shape shape, unsigned arrangement)
{
    struct paper_jobs jobs = { .count = shape.jobs };
    uint32_t shift = one_in(numbers, 4) ? PAPER_TIME - shape.horizon : 0;
    for (unsigned j = 0; j < jobs.count; j++) {
        set_window(numbers, shape, arrangement, &jobs, j);
        jobs.release[j] += shift;
        jobs.deadline[j] += shift;
    }
    return jobs;
}

static struct paper_jobs windows(struct numbers *numbers, struct shape shape)
{
    return arranged_windows(numbers, shape, (unsigned)below(numbers, 8));
}

struct paper_jobs any_jobs(struct numbers *numbers, struct shape shape, const struct paper_levels *levels)
{
    struct paper_jobs jobs = windows(numbers, shape);
    for (unsigned j = 0; j < jobs.count; j++) {
        uint64_t full = (uint64_t)(jobs.deadline[j] - jobs.release[j]) * paper_top(levels);
        uint64_t most = one_in(numbers, 8) ? PAPER_CYCLES : full;
        jobs.cycles[j] = (uint32_t)(one_in(numbers, 4) ? most : between(numbers, 1, most));
    }
    return jobs;
}

/* How much one job takes of one interval that has some left: nothing, up to the end of a band, all, or any part. */
static uint64_t taken(struct numbers *numbers, const struct paper_points *points, uint64_t length, uint64_t load)
{
    uint64_t left = length * (uint64_t)points->frequency[points->m] - load;
    uint64_t band_end = length * (uint64_t)points->frequency[between(numbers, 1, points->m)];
    switch (below(numbers, 8)) {
    case 0:
        return left;
    case 1:
    case 2:
        return band_end > load ? band_end - load : 0;
    case 3:
    case 4:
        return 0;
    default:
        return below(numbers, left / between(numbers, 1, 4) + 1);
    }
}

/* One cycle in the first open interval that has one left. */
static uint64_t take_one(const struct paper_points *points, const struct paper_intervals *intervals, struct paper_loads *loads, unsigned job)
{
    for (unsigned i = 0; i < intervals->count; i++)
        if (paper_open(intervals, i, job) && loads->at[i] < paper_length(intervals, i) * (uint64_t)points->frequency[points->m]) {
            loads->at[i]++;
            return 1;
        }
    return 0;
}

static uint64_t take_cycles(struct numbers *numbers, const struct paper_points *points, const struct paper_intervals *intervals,
    struct paper_loads *loads, unsigned job)
{
    uint64_t cycles = 0;
    for (unsigned i = 0; i < intervals->count; i++)
        if (paper_open(intervals, i, job)) {
            uint64_t part = taken(numbers, points, paper_length(intervals, i), loads->at[i]);
            loads->at[i] += part;
            cycles += part;
        }
    return cycles > 0 ? cycles : take_one(points, intervals, loads, job);
}

/* A job for which nothing is left is left out. */
struct paper_jobs fitting_jobs(struct numbers *numbers, struct shape shape, const struct paper_levels *levels)
{
    const struct paper_marks none = { .count = 0 };
    struct paper_jobs all = windows(numbers, shape), jobs = { .count = 0 };
    struct paper_points points = paper_points(levels);
    struct paper_intervals intervals = paper_intervals(&all, &none);
    struct paper_loads loads = { { 0 } };
    for (unsigned j = 0; j < all.count; j++) {
        uint64_t cycles = take_cycles(numbers, &points, &intervals, &loads, j);
        if (cycles > 0) {
            jobs.release[jobs.count] = all.release[j];
            jobs.deadline[jobs.count] = all.deadline[j];
            jobs.cycles[jobs.count] = (uint32_t)cycles;
            jobs.count++;
        }
    }
    return jobs;
}

struct paper_site site_given(struct paper_given given, struct paper_marks marks)
{
    struct paper_site site = { .given = given, .marks = marks };
    paper_alter(&site);
    site.points = paper_points(&site.levels);
    site.intervals = paper_intervals(&site.jobs, &marks);
    return site;
}

struct paper_site site_of(struct paper_levels levels, struct paper_jobs jobs, struct paper_marks marks)
{
    return site_given((struct paper_given) { levels, jobs, unaltered(&levels) }, marks);
}

struct paper_site tiny_site(struct numbers *numbers)
{
    struct paper_levels levels = with_idling(numbers, close_levels(numbers, 3, 2));
    struct shape shape = { .jobs = (unsigned)between(numbers, 0, PAPER_TINY_JOBS) };
    shape.horizon = (uint32_t)between(numbers, 1, 4);
    struct paper_jobs jobs = windows(numbers, shape);
    for (unsigned j = 0; j < jobs.count; j++)
        jobs.cycles[j] = (uint32_t)between(numbers, 1, PAPER_TINY_CYCLES);
    return site_given(any_given(numbers, levels, jobs), any_marks(numbers, &jobs));
}

static uint64_t shortest_interval(const struct paper_intervals *intervals)
{
    uint64_t shortest = PAPER_TIME;
    for (unsigned i = 0; i < intervals->count; i++)
        if (paper_length(intervals, i) < shortest)
            shortest = paper_length(intervals, i);
    return shortest;
}

/* All jobs together have no more cycles than band 1 takes in the shortest interval, where that has one for each. */
static void set_light_cycles(struct numbers *numbers, struct paper_site *site)
{
    unsigned count = site->jobs.count;
    uint64_t most = shortest_interval(&site->intervals) * (uint64_t)site->points.frequency[1] / (count > 0 ? count : 1);
    for (unsigned j = 0; j < count; j++)
        site->jobs.cycles[j] = (uint32_t)(most < 1 ? 1 : one_in(numbers, 2) ? most : between(numbers, 1, most));
}

struct paper_site light_site(struct numbers *numbers, struct shape shape)
{
    struct paper_levels levels = any_levels(numbers);
    struct paper_jobs jobs = windows(numbers, shape);
    struct paper_site site = site_of(levels, jobs, any_marks(numbers, &jobs));
    set_light_cycles(numbers, &site);
    return site_given(any_given(numbers, levels, site.jobs), site.marks);
}

/* Each job has up to an equal share of what the top frequency does in its window, so that all can be served. */
static void set_shared_cycles(struct numbers *numbers, struct paper_site *site)
{
    struct paper_jobs *jobs = &site->jobs;
    for (unsigned j = 0; j < jobs->count; j++) {
        uint64_t share = (uint64_t)(jobs->deadline[j] - jobs->release[j]) * paper_top(&site->levels) / jobs->count;
        jobs->cycles[j] = (uint32_t)(share < 1 ? 1 : one_in(numbers, 2) ? share : between(numbers, 1, share));
    }
}

/* As many jobs, intervals and open pairs as there can be: each window is inside the one before or a step later, and all marks stand
 * where all jobs are open. */
static struct paper_site largest_site(struct numbers *numbers)
{
    struct shape shape = { PAPER_JOBS, (uint32_t)ONE_OF(numbers, 1000, PAPER_TIME) };
    struct paper_levels levels = any_levels(numbers);
    struct paper_jobs jobs = arranged_windows(numbers, shape, (unsigned)between(numbers, 1, 2));
    struct paper_site site = site_of(levels, jobs, crowded_marks(&jobs));
    if (one_in(numbers, 2))
        set_light_cycles(numbers, &site);
    else
        set_shared_cycles(numbers, &site);
    return site_given(any_given(numbers, levels, site.jobs), site.marks);
}

struct paper_site any_site(struct numbers *numbers, struct shape shape)
{
    struct paper_levels levels = any_levels(numbers);
    struct paper_jobs jobs = one_in(numbers, 6) ? any_jobs(numbers, shape, &levels) : fitting_jobs(numbers, shape, &levels);
    return site_given(any_given(numbers, levels, jobs), any_marks(numbers, &jobs));
}

struct paper_site large_site(struct numbers *numbers)
{
    return below(numbers, 4) == 3 ? largest_site(numbers) : any_site(numbers, large_shape(numbers));
}

struct paper_site small_or_large_site(struct numbers *numbers)
{
    return is_large(numbers) ? large_site(numbers) : any_site(numbers, small_shape(numbers));
}
