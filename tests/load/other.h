/* Plans that nobody made least, and price lists for them, as an impostor would send them. */
#ifndef OTHER_H
#define OTHER_H

#include "numbers.h"
#include "table.h"

/* A plan that gives each job its cycles, in open intervals of any choice. */
void any_plan(struct numbers *numbers, const struct paper_site *site, struct plan *plan);
/* A plan that puts each job in its first interval. */
void first_plan(const struct paper_site *site, struct plan *plan);
/* A plan that gives each job cycles in every interval where it is open, if it has so many. */
void full_plan(struct numbers *numbers, const struct paper_site *site, struct plan *plan);
/* One of these three. */
void hand_made_plan(struct numbers *numbers, const struct paper_site *site, struct plan *plan);
/* The band of each load as the price, m where it is overloaded. A step in an interval that the site does not have counts for none. */
void band_prices(const struct paper_site *site, const struct plan *plan, struct prices *prices);

#endif
