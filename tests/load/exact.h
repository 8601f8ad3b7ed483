/* Sites that are planned for the exact energy of the plan. */
#ifndef EXACT_H
#define EXACT_H

#include "compare.h"

/* The exact energy is multiplied by all gaps, and may wrap; it does so alike wherever two are compared. Both are 0 without a plan. */
struct planned {
    bool came_out;
    uint64_t exact, figure;
};

struct planned plan_exactly(struct numbers *numbers, const struct paper_site *site);

#endif
