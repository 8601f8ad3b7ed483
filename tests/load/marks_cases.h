/* The cases of handover marks. */
#ifndef MARKS_CASES_H
#define MARKS_CASES_H

#include "compare.h"

/* Plans a site with marks and without, and asks all operations of it with marks that have no effect and without those. */
void marked_sites(struct numbers *numbers);

#endif
