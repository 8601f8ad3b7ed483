/* Which of the plans with its loads planning writes. Documents 01 and 02 leave that free; the design decides it. */
#ifndef FILLED_H
#define FILLED_H

#include "paper/paper.h"

/* The shares, at interval x jobs + job, that fill the loads of a plan interval by interval and in each by job number. Each cell gets
 * what its job has left, but no more than what must still go across each bound between the interval and the job's deadline. */
void filled_shares(const struct paper_site *site, const struct paper_loads *loads, uint32_t shares[PAPER_INTERVALS * PAPER_JOBS]);

#endif
