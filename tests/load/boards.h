/* Boards of one type: valid level tables with the same working frequencies. */
#ifndef BOARDS_H
#define BOARDS_H

#include "numbers.h"
#include "paper/paper.h"

/* A board of the given one's type: other voltages, an idle entry more or less or another draw, dropped levels more or less. */
struct paper_levels other_board(struct numbers *numbers, const struct paper_levels *board);

#endif
