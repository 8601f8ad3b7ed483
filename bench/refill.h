/* The last step of the plain planner's placing: the same loads with few steps. */
#ifndef REFILL_H
#define REFILL_H

#include "work.h"

/* Fills the loads of placed shares anew, interval after interval and in each by job number, each cell as full as it may be. At most
 * jobs + intervals - 1 cells then have a share. */
void refill(const struct work *w, const uint64_t *loads, uint32_t *shares, uint64_t *holders);

#endif
