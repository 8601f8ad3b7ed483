/* Tables with a fault: one field out of its range or order, an idle entry where none may stand, a wrong count, bytes missing
 * or too many, any bytes. */
#ifndef DAMAGE_H
#define DAMAGE_H

#include "numbers.h"
#include "table.h"

void damage_levels(struct numbers *numbers, struct table *table);
void damage_jobs(struct numbers *numbers, struct table *table);
void damage_marks(struct numbers *numbers, struct table *table);
void damage_tasks(struct numbers *numbers, struct table *table);
/* Missing bytes, further bytes, or one byte changed. */
void damage_bytes(struct numbers *numbers, struct table *table);
/* Any bytes; the first ones are sometimes a count that is allowed. */
void any_bytes(struct numbers *numbers, struct table *table, unsigned most, unsigned count);

#endif
