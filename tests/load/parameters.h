/* Site parameters of many kinds, and sites that they alter. */
#ifndef PARAMETERS_H
#define PARAMETERS_H

#include "numbers.h"
#include "paper/paper.h"

/* All running levels, 0 and 0. */
struct paper_parameters unaltered(const struct paper_levels *levels);
/* The levels, and up to three more above them, as far as there is room. */
struct paper_levels with_higher_levels(struct numbers *numbers, struct paper_levels levels);
/* A site that is altered to these levels and jobs: mostly given with levels above the top, later deadlines or fewer cycles. Where no number
 * of cycles comes to a job's with the margin, the job has one less, or two where it has one. Half of them are given as they are. */
struct paper_given any_given(struct numbers *numbers, struct paper_levels levels, struct paper_jobs jobs);
/* In range, and so that no job is refused. Half of them alter nothing. */
struct paper_parameters fitting_parameters(struct numbers *numbers, const struct paper_levels *levels, const struct paper_jobs *jobs);
/* At the ends of their ranges, past them, or beside those of the site; free ticks that just empty a window or just do not. */
struct paper_parameters near_limits(struct numbers *numbers, const struct paper_given *given);
/* One of the site's with one more, one less or none; or all near their limits. */
struct paper_parameters other_parameters(struct numbers *numbers, const struct paper_given *given);
/* The most cycles that come to at most 1,000,000,000 with the margin. */
uint32_t most_cycles(uint32_t margin);

#endif
