/* What the plain planner places, and where it stands. */
#ifndef WORK_H
#define WORK_H

#include <stdint.h>

enum { JOBS = 64, LEVELS = 8, MARKS = 8, BOUNDS = 2 * JOBS + MARKS, INTERVALS = BOUNDS - 1 };

/* For each interval `open` has the set of the jobs that are open there, and after the last one an empty set. */
struct work {
    int jobs, intervals, bands;
    const uint64_t *times, *cycles, *frequency;
    int first[JOBS], last[JOBS];
    uint64_t size[INTERVALS], open[BOUNDS];
};

/* For each interval the cycles that it still takes at the band, and the set of the jobs with a share there. */
struct tables {
    uint64_t room[INTERVALS], holders[INTERVALS];
};

#endif
