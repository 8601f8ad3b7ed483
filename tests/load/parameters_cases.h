/* The cases of site parameters. */
#ifndef PARAMETERS_CASES_H
#define PARAMETERS_CASES_H

#include "compare.h"

/* Asks all operations of a site with parameters, and of the same site altered by hand; then of the site with parameters near their
 * limits. */
void altered_sites(struct numbers *numbers);

#endif
