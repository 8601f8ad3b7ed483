/* The cases of one plan on two boards. */
#ifndef BOARDS_CASES_H
#define BOARDS_CASES_H

#include "compare.h"

/* Asks all operations of a site on two boards of one type, and checks and orders plans on both, sound ones and others. */
void alike_boards(struct numbers *numbers);

#endif
