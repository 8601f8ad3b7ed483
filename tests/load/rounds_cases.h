/* The cases of tasks that are laid out over one round. */
#ifndef ROUNDS_CASES_H
#define ROUNDS_CASES_H

#include "compare.h"

/* Lays tasks out with buffers of any length, and plans some of the rounds, once and repeated. */
void laid_out_rounds(struct numbers *numbers);
/* The same of tables with faults, which are not planned. */
void damaged_tasks(struct numbers *numbers);

#endif
