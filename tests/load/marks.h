/* Valid mark tables of many kinds. */
#ifndef MARKS_H
#define MARKS_H

#include "numbers.h"
#include "paper/paper.h"

/* One to eight marks: at a release or deadline, a tick before or after one, anywhere between them, in the interval with the most open
 * jobs, or far away. */
struct paper_marks some_marks(struct numbers *numbers, const struct paper_jobs *jobs);
/* Eight marks, as far as they find room, in the interval with the most open jobs, at even distances: they make as many open pairs as
 * there can be. */
struct paper_marks crowded_marks(const struct paper_jobs *jobs);
/* Half of the tables have none. */
struct paper_marks any_marks(struct numbers *numbers, const struct paper_jobs *jobs);
/* Marks beside these that have no effect, as far as there is room. */
struct paper_marks more_without_effect(struct numbers *numbers, const struct paper_jobs *jobs, struct paper_marks marks);
/* No marks; one less, one more or one a tick away; or others. */
struct paper_marks other_marks(struct numbers *numbers, const struct paper_jobs *jobs, struct paper_marks marks);

#endif
