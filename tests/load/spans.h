/* Windows and spans of ticks to ask for. */
#ifndef SPANS_H
#define SPANS_H

#include "compare.h"

/* From a release, a deadline, a time beside one, a limit, or any number to another; mostly with its start before its end. */
struct window any_window(struct numbers *numbers, const struct paper_jobs *jobs);
/* Such a window; a tick or two; one of the intervals, or a tick more or less; all ticks. Mostly a right one. */
struct window any_span(struct numbers *numbers, const struct paper_site *site);

#endif
