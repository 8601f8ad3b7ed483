/* Document 01 and Changes 1 to 3 and 5 to 11 of document 02 in plain C, written from the pages alone, to be held against the archive.
 * It reads tables, lays out tasks, judges plans, puts them in order, lists what touches a span, lists how many cycles each job can
 * have more, and says when planning must refuse. It does not plan.
 * Nothing here is meant to be fast: each function follows the words of the pages. */
#ifndef PAPER_H
#define PAPER_H

#include <stdbool.h>
#include <stddef.h>
#include <stdint.h>

#include "ramyearly.h"

enum {
    PAPER_LEVELS = 8,
    PAPER_JOBS = 64,
    PAPER_TASKS = 16,
    PAPER_MARKS = 8,
    PAPER_BOUNDS = 2 * PAPER_JOBS + PAPER_MARKS,
    PAPER_INTERVALS = PAPER_BOUNDS - 1,
    /* The most open pairs: no deadline is before a release, and all marks stand between them. */
    PAPER_PAIRS = PAPER_JOBS * (PAPER_JOBS + PAPER_MARKS),
    /* The most steps of a plan that planning writes. */
    PAPER_STEPS_PLANNED = PAPER_JOBS + PAPER_INTERVALS - 1,
    /* The length of a plan with a step for every job in every interval. */
    PAPER_PLAN = 4 + 6 * PAPER_INTERVALS * PAPER_JOBS,
    PAPER_TIME = 1000000,
    PAPER_CYCLES = 1000000000,
    PAPER_FREQUENCY = 1000,
    PAPER_VOLTAGE = 500,
    PAPER_DRAW = 65535,
    PAPER_MARGIN = 100
};

/* Tiny sites, whose schedules can be gone through whole. */
enum { PAPER_TINY_JOBS = 3, PAPER_TINY_CYCLES = 6, PAPER_TINY_SLOTS = 2 };

struct paper_bytes {
    const uint8_t *at;
    size_t length;
};

/* The site parameters: the highest running level allowed, ticks kept free before each deadline, and a margin on cycles in percent. */
struct paper_parameters {
    uint32_t highest, free_ticks, margin;
};

/* The tables of a site, and its parameters. */
struct paper_tables {
    struct paper_bytes levels, jobs, marks;
    struct paper_parameters parameters;
};

/* Number 0: nothing is refused. */
struct paper_refusal {
    uint32_t number, place;
};

/* The running levels, and whether an idle entry stands before them. The draw is in thousands, and 0 without the entry. */
struct paper_levels {
    unsigned count;
    uint32_t frequency[PAPER_LEVELS], voltage[PAPER_LEVELS];
    bool idle_entry;
    uint32_t draw;
};

struct paper_jobs {
    unsigned count;
    uint32_t release[PAPER_JOBS], deadline[PAPER_JOBS], cycles[PAPER_JOBS];
};

struct paper_tasks {
    unsigned count;
    uint32_t phase[PAPER_TASKS], period[PAPER_TASKS], deadline[PAPER_TASKS], cycles[PAPER_TASKS];
};

struct paper_marks {
    unsigned count;
    uint32_t tick[PAPER_MARKS];
};

/* Points 0 to m: idling, then the working levels. */
struct paper_points {
    unsigned m;
    int64_t frequency[PAPER_LEVELS + 1], power[PAPER_LEVELS + 1];
};

/* Interval i goes from bound i to bound i + 1; bit j of open[i] says that job j is open there. */
struct paper_intervals {
    unsigned count;
    uint32_t bound[PAPER_BOUNDS];
    uint64_t open[PAPER_INTERVALS];
};

/* A site as it is given, before its parameters alter the levels and the jobs. */
struct paper_given {
    struct paper_levels levels;
    struct paper_jobs jobs;
    struct paper_parameters parameters;
};

/* The tables, decoded and altered, with what follows from them. */
struct paper_site {
    struct paper_given given;
    struct paper_levels levels;
    struct paper_jobs jobs;
    struct paper_marks marks;
    struct paper_points points;
    struct paper_intervals intervals;
};

/* The lists that are lent for what touches a span, in their order. */
enum paper_list { PAPER_OPEN, PAPER_INSIDE, PAPER_STEPS, PAPER_LISTS };

/* What touches a span: the numbers of each list, as many as the answer says; for refusal 14 the list that is too short. */
struct paper_touched {
    uint32_t open[PAPER_JOBS], inside[PAPER_JOBS], steps[PAPER_INTERVALS * PAPER_JOBS];
    enum paper_list too_short;
};

/* A step of a plan. */
struct paper_step {
    unsigned cell, interval, job;
    uint32_t cycles;
};

/* The cycles of each interval. */
struct paper_loads {
    uint64_t at[PAPER_INTERVALS];
};

/* tables.c */
uint32_t paper_number(struct paper_bytes bytes, size_t at, unsigned width);
struct paper_refusal paper_refuse(uint32_t number, uint32_t place);
struct paper_refusal paper_read_levels(struct paper_bytes bytes, struct paper_levels *levels);
struct paper_refusal paper_read_jobs(struct paper_bytes bytes, struct paper_jobs *jobs);

/* marks.c */
struct paper_refusal paper_read_marks(struct paper_bytes bytes, struct paper_marks *marks);
bool paper_mark_is_bound(const struct paper_jobs *jobs, uint32_t tick);

/* parameters.c */
struct paper_refusal paper_alter_levels(uint32_t highest, struct paper_levels *levels);
uint64_t paper_with_margin(uint64_t cycles, uint32_t margin);
bool paper_emptied(uint32_t release, uint32_t deadline, uint32_t free_ticks);
struct paper_refusal paper_alter_jobs(uint32_t free_ticks, uint32_t margin, struct paper_jobs *jobs);
struct paper_refusal paper_alter(struct paper_site *site);

/* levels.c */
int64_t paper_idle_power(const struct paper_levels *levels);
int64_t paper_power(const struct paper_levels *levels, unsigned level);
struct paper_points paper_points(const struct paper_levels *levels);
bool paper_same_type(const struct paper_levels *one, const struct paper_levels *other);
uint32_t paper_top(const struct paper_levels *levels);
unsigned paper_band(const struct paper_points *points, uint64_t length, uint64_t load);
struct ramyearly_setting_answer paper_setting(struct paper_bytes levels, uint32_t highest, uint32_t length, uint64_t load);

/* intervals.c */
void paper_sort(uint32_t *numbers, unsigned count);
struct paper_intervals paper_intervals(const struct paper_jobs *jobs, const struct paper_marks *marks);
bool paper_open(const struct paper_intervals *intervals, unsigned interval, unsigned job);
uint64_t paper_length(const struct paper_intervals *intervals, unsigned interval);
struct paper_refusal paper_read_site(struct paper_tables tables, struct paper_site *site);

/* windows.c */
int64_t paper_spare_of(const struct paper_site *site, uint32_t start, uint32_t end);
bool paper_overfull(const struct paper_site *site, uint32_t *start, uint32_t *end);
struct ramyearly_spare_answer paper_spare(struct paper_tables tables, uint32_t start, uint32_t end);

/* energy.c */
uint64_t paper_figure(const struct paper_site *site, const struct paper_loads *loads);
uint64_t paper_gaps(const struct paper_points *points);
uint64_t paper_exact(const struct paper_site *site, const struct paper_loads *loads);
uint64_t paper_carried_out(const struct paper_site *site, const struct paper_loads *loads);

/* steps.c */
unsigned paper_step_count(struct paper_bytes plan);
struct paper_step paper_step(struct paper_bytes plan, unsigned s);
struct paper_refusal paper_steps_refusal(const struct paper_jobs *jobs, const struct paper_intervals *intervals, struct paper_bytes plan);

/* fits.c */
struct paper_loads paper_loads(struct paper_bytes plan);
struct paper_refusal paper_fits_refusal(const struct paper_site *site, struct paper_bytes plan);
struct ramyearly_fits_answer paper_fits(struct paper_tables tables, struct paper_bytes plan);

/* check.c */
struct ramyearly_check_answer paper_check(struct paper_tables tables, struct paper_bytes plan, struct paper_bytes prices);

/* planning.c */
unsigned paper_pairs(const struct paper_intervals *intervals);
unsigned paper_step_limit(const struct paper_site *site);
struct ramyearly_plan_answer paper_planning(struct paper_tables tables, size_t plan, size_t prices, size_t shares);
void paper_smallest_prices(const struct paper_site *site, struct paper_bytes plan, uint8_t price[PAPER_INTERVALS]);

/* rounds.c */
struct paper_refusal paper_read_tasks(struct paper_bytes bytes, struct paper_tasks *tasks);
uint32_t paper_multiple(const struct paper_tasks *tasks);
struct ramyearly_rounds_answer paper_rounds(struct paper_bytes tasks, size_t jobs_length, struct paper_jobs *jobs);

/* order.c */
struct ramyearly_order_answer paper_order(struct paper_tables tables, struct paper_bytes plan, struct paper_bytes prices, size_t ordered_length,
    uint8_t ordered[PAPER_PLAN]);
bool paper_same_shares(struct paper_bytes plan, struct paper_bytes other);

/* touching.c */
struct ramyearly_touching_answer paper_touching(struct paper_tables tables, struct paper_bytes plan, uint32_t start, uint32_t end,
    size_t open_length, size_t inside_length, size_t steps_length, struct paper_touched *touched);

/* nearest.c */
struct paper_refusal paper_read_unmarked(struct paper_tables tables, struct paper_site *site);
bool paper_is_most(const struct paper_site *site, unsigned job, uint32_t most);
struct ramyearly_nearest_answer paper_nearest(struct paper_tables tables, size_t list_length, uint32_t list[2 * PAPER_JOBS]);

/* carrying.c */
bool paper_carries_out(const struct paper_site *site, struct paper_bytes plan);

/* search.c */
bool paper_search(const struct paper_site *site, uint64_t *least);

/* schedules.c */
bool paper_schedules(const struct paper_site *site, unsigned q, uint64_t *least);

#endif
