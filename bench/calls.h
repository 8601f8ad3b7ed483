/* One site that is open at a time, and the calls that are measured on it. */
#ifndef CALLS_H
#define CALLS_H

#include "ramyearly.h"
#include "site.h"

extern struct site site;
extern struct network network;
extern struct ramyearly_plan_answer planned;

/* Makes the site of a family without marks and plans it. What comes out is held against both halves of the check, ordering, touching,
 * the plain planner and, where they are linked, planning and checking before. Planning before has the same loads, figure and prices; its
 * shares may be others. The list of the job nearest to trouble is held against all windows of the site. */
void open_site(int family, int jobs, int seed);
/* Makes the site and tests its windows, and calls nothing else: for counting instructions. */
void open_windows(int family, int jobs, int seed);
/* Whether the window test of the open site is refused by 12. Opening a site leaves it out, since it is a call of planning. */
void test_windows(void);
/* Gives the site that is open marks and plans it again. Its least exact energy must stay. */
void mark_site(void);
/* The plan with the most steps that there can be. */
void open_longest(void);
/* The most tasks and jobs that rounds can be given. */
void open_tasks(void);

/* On the open site; fitting, checking and ordering by the plan as it came out or with its steps mixed, touching of all ticks. */
void call_plan(void);
void call_plain(void);
void call_fits(void);
void call_fits_mixed(void);
void call_check(void);
void call_check_mixed(void);
void call_order(void);
void call_touching(void);
void call_nearest(void);
/* The window test: planning into a plan buffer of 0 bytes, which reads the tables, tests all windows and then refuses by 12. */
void call_windows(void);
/* Of all intervals. */
void call_settings(void);
void call_spare(void);
void call_rounds(void);
#ifdef WITH_BEFORE
/* Those of an earlier commit. */
void call_plan_before(void);
void call_check_before(void);
#endif

/* Whether another solver's optimum is ours. */
void same_optimum(const char *who, const struct totals *totals);
/* Ends the run. */
void wrong(const char *who, const char *what);

#endif
