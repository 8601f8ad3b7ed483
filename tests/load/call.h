/* What the comparisons share: lending tables, saying what differs, counting. */
#ifndef CALL_H
#define CALL_H

#include "compare.h"
#include "guarded.h"

/* The arguments with which planning, the two halves of the check and ordering begin. */
#define SITE_ARGUMENTS(t) \
    (t).levels.at, (t).levels.length, (t).jobs.at, (t).jobs.length, (t).marks.at, (t).marks.length, (t).parameters.highest, \
        (t).parameters.free_ticks, (t).parameters.margin

enum { LEVELS, JOBS, MARKS, PLAN, PRICES, TASKS, TABLES };

/* Maps the room that tables are lent from. */
void call_start(void);
/* Map the buffers of planning, of rounds and of ordering, and the lists of touching and of nearest. */
void call_start_plan(void);
void call_start_rounds(void);
void call_start_order(void);
void call_start_touching(void);
void call_start_nearest(void);

void call_begin(void);
/* Lends a copy of the table, read only, at either end of its room. */
struct paper_bytes call_lend(struct numbers *numbers, unsigned which, const struct table *table);
/* Answers the parameters, which are printed where the call disagrees. */
struct paper_parameters call_lend_parameters(struct paper_parameters parameters);
/* The tables and parameters of a site. */
struct paper_tables call_lend_site(struct numbers *numbers, const struct site_tables *site);
/* Call the spare, nearest and the check. */
struct ramyearly_spare_answer call_spare(struct paper_tables site, uint32_t start, uint32_t end);
struct ramyearly_nearest_answer call_nearest(struct paper_tables site, uint32_t *list, size_t list_length);
struct ramyearly_check_answer call_check(struct paper_tables site, struct paper_bytes plan, struct paper_bytes prices);
/* Calls the first half of the check, counts it and holds it against the paper. */
struct ramyearly_fits_answer call_fits(struct paper_tables site, struct paper_bytes plan);
/* The same, and holds it against what the check answered for this plan with whatever prices. */
struct ramyearly_fits_answer call_first_half(struct paper_tables site, struct paper_bytes plan, struct ramyearly_check_answer whole);
/* Says it when bytes at the start of a part are not the right ones. Nothing is read past the part. */
void same_bytes(const char *what, const struct guarded *memory, struct part part, struct paper_bytes wanted);
/* Whether everything looked at since the beginning was right. */
bool call_agrees(void);
/* Counts a call and the number it answered. */
void call_count(uint32_t number);
/* Counts a site that is altered, by what and among those that are answered; or why its job is refused by 36. */
void call_count_altered(struct paper_tables site, uint32_t number, uint32_t place, uint64_t *answered);
/* Prints the tables where something was not right. */
void call_report(const char *operation);
/* Counts the call and reports it. */
void call_end(const char *operation, uint32_t number);

#endif
