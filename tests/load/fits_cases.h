/* The cases of plans that fit, without prices. */
#ifndef FITS_CASES_H
#define FITS_CASES_H

#include "compare.h"

/* Makes plans that fit but that nobody made least, and plans that just do not fit, and asks both halves of the check, the second
 * with prices that are mostly wrong. */
void fitting_plans(struct numbers *numbers);
/* Asks whether plans that nobody made least fit a tiny site. One that does is carried out, and has at least the least energy of all
 * placements; there must be such. */
void fit_tiny_site(struct numbers *numbers, const struct paper_site *site, bool has_placement, uint64_t least);

#endif
