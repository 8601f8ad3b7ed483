/* Valid level and job tables of many shapes, and sites of them with marks. */
#ifndef SITES_H
#define SITES_H

#include "numbers.h"
#include "paper/paper.h"

/* Half of the tables that have room for an idle entry get one, whose draw is any that is allowed. */
struct paper_levels with_idling(struct numbers *numbers, struct paper_levels levels);
/* Often with an idle entry. */
struct paper_levels any_levels(struct numbers *numbers);

/* How many jobs at most, and how late their deadlines are. */
struct shape {
    unsigned jobs;
    uint32_t horizon;
};

/* True once in 16 times, and never after the last byte of a fuzzer's input: large cases take long. */
bool is_large(struct numbers *numbers);
struct shape small_shape(struct numbers *numbers);

/* Jobs that can be served: their cycles are taken from what the intervals have left, and often fill a band exactly. */
struct paper_jobs fitting_jobs(struct numbers *numbers, struct shape shape, const struct paper_levels *levels);
/* Jobs with any cycles; many have an overfull window. */
struct paper_jobs any_jobs(struct numbers *numbers, struct shape shape, const struct paper_levels *levels);

/* A site of tables that its parameters alter, and refuse no job. */
struct paper_site site_given(struct paper_given given, struct paper_marks marks);
/* A site of tables that nothing alters. */
struct paper_site site_of(struct paper_levels levels, struct paper_jobs jobs, struct paper_marks marks);

/* Half of the sites that are made here are given with parameters that alter something. */

/* A site whose placements and schedules can be gone through whole. */
struct paper_site tiny_site(struct numbers *numbers);
/* Its jobs are so light that all loads stay in band 1, mostly whichever plan it has: then each is a least one. */
struct paper_site light_site(struct numbers *numbers, struct shape shape);
/* Mostly fitting, half of them with marks. */
struct paper_site any_site(struct numbers *numbers, struct shape shape);
/* Some have as many jobs, intervals and open pairs as there can be. */
struct paper_site large_site(struct numbers *numbers);
struct paper_site small_or_large_site(struct numbers *numbers);

#endif
