/* The cases of what touches a span. */
#ifndef TOUCHING_CASES_H
#define TOUCHING_CASES_H

#include "compare.h"

/* Asks what touches a span near the jobs of a site, with lists of any lengths. The tables may be damaged. */
void touch_any(struct numbers *numbers, const struct paper_site *near, const struct site_tables *tables, const struct table *plan);
/* Makes a site and a plan for it, mostly with its steps in another order and often with a fault, and asks for several spans. */
void touched_spans(struct numbers *numbers);

#endif
