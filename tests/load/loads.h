/* Lengths and loads of one interval. */
#ifndef LOADS_H
#define LOADS_H

#include "numbers.h"
#include "paper/paper.h"

/* Mostly allowed. */
uint32_t any_length(struct numbers *numbers);
/* At the end of a level, dropped or not, one to either side, or any. */
uint64_t any_load(struct numbers *numbers, const struct paper_levels *given, uint32_t length);

#endif
