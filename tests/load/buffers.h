/* Lengths of the buffers that are lent. */
#ifndef BUFFERS_H
#define BUFFERS_H

#include "compare.h"

/* A buffer has at most so much more than is wanted. */
enum { MOST_MORE = 70 };

/* Mostly enough, often just so; sometimes one too few, none, or any smaller number. */
size_t any_buffer(struct numbers *numbers, size_t wanted);
/* The three of planning. That of the plan is often between what is wanted and what a step in each open pair would take. */
struct buffer_lengths any_buffers(struct numbers *numbers, const struct paper_site *site);
struct buffer_lengths enough(const struct paper_site *site);

#endif
