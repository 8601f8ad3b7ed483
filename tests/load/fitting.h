/* Plans that just fit, and plans that just do not, made of one that fits. */
#ifndef FITTING_H
#define FITTING_H

#include "numbers.h"
#include "table.h"

/* Changes the plan, which fits: it has a load at the top frequency or one cycle past it, a sum one cycle off, a cell twice, or a cell
 * where its job is not open; or only its steps are in another order. Answers how it must be refused, number 0 where it still fits. */
struct paper_refusal change_fitting(struct numbers *numbers, const struct paper_site *site, struct plan *plan);

#endif
