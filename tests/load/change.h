/* Plans and price lists with one change: steps changed, swapped, doubled or left out, cycles moved, prices changed. */
#ifndef CHANGE_H
#define CHANGE_H

#include "numbers.h"
#include "table.h"

/* The same steps in another order. */
void change_order(struct numbers *numbers, struct plan *plan);
/* Cycles moved between intervals where their jobs are open, if only one: each job has as many as before. */
void change_shares(struct numbers *numbers, const struct paper_site *site, struct plan *plan);
/* Steps left out, and cycles taken from steps that keep some: each step is still right by itself. */
void change_sums(struct numbers *numbers, struct plan *plan);
/* Moves so many cycles of the step of this cell, which has them, to another interval. */
void move_part(struct plan *plan, unsigned cell, unsigned to, uint32_t part);
void change_plan(struct numbers *numbers, const struct paper_site *site, struct plan *plan);
void change_prices(struct numbers *numbers, const struct paper_site *site, struct prices *prices);
/* Mostly one change, sometimes none or two, of the plan or of its prices. */
void change_either(struct numbers *numbers, const struct paper_site *site, struct plan *plan, struct prices *prices);

#endif
