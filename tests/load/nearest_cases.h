/* The cases of the job nearest to trouble. */
#ifndef NEAREST_CASES_H
#define NEAREST_CASES_H

#include "compare.h"

/* Asks for the most cycles of each job of a site with that many jobs, with a list of any length. The tables may be damaged. */
void list_any(struct numbers *numbers, const struct site_tables *tables, unsigned jobs);
/* Makes a site, asks into lists of several lengths, and then gives one of its jobs the most cycles that it can have, and one more. */
void nearest_jobs(struct numbers *numbers);

#endif
