/* Valid task tables of many shapes, whether or not their jobs can be laid out. */
#ifndef TASKS_H
#define TASKS_H

#include "numbers.h"
#include "paper/paper.h"

/* Their cycles are mostly such that the levels can serve all jobs. */
struct paper_tasks any_tasks(struct numbers *numbers, const struct paper_levels *levels);

#endif
