/* The cases of plans in cell order. */
#ifndef ORDER_CASES_H
#define ORDER_CASES_H

#include "compare.h"

/* Plans a site, and puts that plan and others for the same jobs in order, their steps in any order. */
void ordered_plans(struct numbers *numbers);

#endif
