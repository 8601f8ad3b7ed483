/* The groups of cases. A case makes its tables from numbers, and calls the archive once or more. */
#ifndef GROUPS_H
#define GROUPS_H

#include "compare.h"

struct group {
    const char *name;
    void (*run)(struct numbers *numbers);
    /* How many of WEIGHTS cases are of this group. */
    unsigned weight;
    struct tally tally;
};

enum { GROUPS = 19, WEIGHTS = 264 };

extern struct group groups[GROUPS];

/* Runs one case of a group that the numbers choose. */
void run_case(struct numbers *numbers);

#endif
