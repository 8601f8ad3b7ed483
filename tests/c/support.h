/* What the cases share: tables in bytes, and a call of each function with the answer that is right. */
#ifndef SUPPORT_H
#define SUPPORT_H

#include "ramyearly.h"

/* 1 as soon as something was not right. */
extern int wrong;

struct bytes {
    uint8_t at[1192];
    size_t length;
};

/* The buffers that planning is lent, filled with a pattern. They have room for any site: 64 jobs and 8 marks make 135 intervals and at most
 * 198 steps. No byte stands between them, so that all of them can be compared. */
struct lent {
    uint8_t plan[1200], prices[680];
    uint32_t shares[64 * 135];
};

/* The numbers of a list: at most two for each of 64 jobs. */
struct list {
    uint32_t at[128];
    size_t length;
};

/* What touches a span. */
struct touched {
    struct list open, inside, steps;
    uint32_t deadline;
};

/* The lengths of the lists that touching is lent. */
struct room {
    size_t open, inside, steps;
};

/* The site parameters of a call. */
struct parameters {
    uint32_t highest, free_ticks, margin;
};

/* A count of 16 bits, then numbers of one width. */
struct bytes table(unsigned width, unsigned count, const uint32_t *numbers, size_t n);
/* Each step is its interval, its job and its cycles. */
struct bytes plan_of(unsigned intervals, unsigned count, const uint32_t (*steps)[3]);
struct bytes prices_of(unsigned intervals, const uint32_t *ends, const uint8_t *prices);
struct bytes cut(struct bytes b);
struct bytes extended(struct bytes b);
/* Numbers with blanks between. */
struct list list_of(const char *text);
/* The mark table of these ticks. */
struct bytes marks_at(const char *text);
/* Level pair T: 2 at 10, 4 at 20. Powers 200 and 1,600; gaps 2 and 2; prices 100 and 700. */
struct bytes level_pair(void);

/* The number of running levels of a level table: its entries without the idle entry. Any number where the table is damaged. */
uint32_t running(struct bytes level_table);
/* All running levels with 0 and 0. */
struct parameters unaltered(struct bytes level_table);

/* Where a call takes marks and no mark table is given here, none are lent: the two bytes 0 0. Where it takes parameters and none are given,
 * nothing is altered. */

void same(const char *name, int64_t found, int64_t wanted);
void setting_is(const char *name, struct bytes level_table, uint32_t length, uint64_t load, struct ramyearly_setting_answer wanted);
void setting_altered_is(const char *name, struct bytes level_table, uint32_t highest, uint32_t length, uint64_t load,
    struct ramyearly_setting_answer wanted);
void spare_is(const char *name, struct bytes level_table, struct bytes job_table, uint32_t start, uint32_t end, struct ramyearly_spare_answer wanted);
void spare_altered_is(const char *name, struct bytes level_table, struct bytes job_table, struct parameters parameters, uint32_t start, uint32_t end,
    struct ramyearly_spare_answer wanted);
void fits_is(const char *name, struct bytes level_table, struct bytes job_table, struct bytes plan_table, struct ramyearly_fits_answer wanted);
void fits_marked_is(const char *name, struct bytes level_table, struct bytes job_table, struct bytes mark_table, struct bytes plan_table,
    struct ramyearly_fits_answer wanted);
void fits_altered_is(const char *name, struct bytes level_table, struct bytes job_table, struct bytes mark_table, struct parameters parameters,
    struct bytes plan_table, struct ramyearly_fits_answer wanted);
void check_is(const char *name, struct bytes level_table, struct bytes job_table, struct bytes plan_table, struct bytes price_list,
    struct ramyearly_check_answer wanted);
void check_marked_is(const char *name, struct bytes level_table, struct bytes job_table, struct bytes mark_table, struct bytes plan_table,
    struct bytes price_list, struct ramyearly_check_answer wanted);
void check_altered_is(const char *name, struct bytes level_table, struct bytes job_table, struct bytes mark_table, struct parameters parameters,
    struct bytes plan_table, struct bytes price_list, struct ramyearly_check_answer wanted);
/* Plans with buffers of the given lengths; without a plan they must stay as they were. */
struct lent plan_is(const char *name, struct bytes level_table, struct bytes job_table, size_t plan_length, size_t prices_length, size_t shares_length,
    struct ramyearly_plan_answer wanted);
struct lent plan_marked_is(const char *name, struct bytes level_table, struct bytes job_table, struct bytes mark_table, size_t plan_length,
    size_t prices_length, size_t shares_length, struct ramyearly_plan_answer wanted);
struct lent plan_altered_is(const char *name, struct bytes level_table, struct bytes job_table, struct bytes mark_table, struct parameters parameters,
    size_t plan_length, size_t prices_length, size_t shares_length, struct ramyearly_plan_answer wanted);
/* What planning wrote is this plan, these prices and these shares, and it wrote nothing else. */
void written_is(const char *name, struct lent found, struct bytes plan, struct bytes prices, const uint32_t *shares, size_t count);
/* Lays out tasks into a job buffer of the given length. These jobs must be written, none where the tasks are refused, and
 * nothing else. Answers what was written. */
struct bytes rounds_is(const char *name, struct bytes task_table, size_t jobs_length, struct ramyearly_rounds_answer wanted, struct bytes job_table);
void rounds_refused(const char *name, struct bytes task_table, size_t jobs_length, uint32_t number, uint32_t place);
/* Writes a plan in cell order to a buffer of the given length. This plan must be written, none where the call is refused, and
 * nothing else. Answers what was written. */
struct bytes order_is(const char *name, struct bytes level_table, struct bytes job_table, struct bytes plan_table, struct bytes price_list,
    size_t ordered_length, struct ramyearly_order_answer wanted, struct bytes ordered_plan);
struct bytes order_marked_is(const char *name, struct bytes level_table, struct bytes job_table, struct bytes mark_table, struct bytes plan_table,
    struct bytes price_list, size_t ordered_length, struct ramyearly_order_answer wanted, struct bytes ordered_plan);
struct bytes order_altered_is(const char *name, struct bytes level_table, struct bytes job_table, struct bytes mark_table,
    struct parameters parameters, struct bytes plan_table, struct bytes price_list, size_t ordered_length, struct ramyearly_order_answer wanted,
    struct bytes ordered_plan);
void order_refused(const char *name, struct bytes level_table, struct bytes job_table, struct bytes plan_table, struct bytes price_list,
    size_t ordered_length, uint32_t number, uint32_t place);
void order_marked_refused(const char *name, struct bytes level_table, struct bytes job_table, struct bytes mark_table, struct bytes plan_table,
    struct bytes price_list, size_t ordered_length, uint32_t number, uint32_t place);
void order_altered_refused(const char *name, struct bytes level_table, struct bytes job_table, struct bytes mark_table, struct parameters parameters,
    struct bytes plan_table, struct bytes price_list, size_t ordered_length, uint32_t number, uint32_t place);

/* Lists what touches a span, into lists of the given lengths. Exactly the wanted numbers must be written, and what stands before
 * and after them must stay. */
void touching_is(const char *name, struct bytes job_table, struct bytes plan_table, uint32_t start, uint32_t end, struct room room,
    const struct touched *wanted);
void touching_marked_is(const char *name, struct bytes job_table, struct bytes mark_table, struct bytes plan_table, uint32_t start, uint32_t end,
    struct room room, const struct touched *wanted);
/* Of the parameters touching takes free ticks and margin. */
void touching_altered_is(const char *name, struct bytes job_table, struct bytes mark_table, struct parameters parameters, struct bytes plan_table,
    uint32_t start, uint32_t end, struct room room, const struct touched *wanted);
/* All three lists must stay. */
void touching_refused(const char *name, struct bytes job_table, struct bytes plan_table, uint32_t start, uint32_t end, struct room room,
    uint32_t number, uint32_t place);
void touching_marked_refused(const char *name, struct bytes job_table, struct bytes mark_table, struct bytes plan_table, uint32_t start,
    uint32_t end, struct room room, uint32_t number, uint32_t place);
void touching_altered_refused(const char *name, struct bytes job_table, struct bytes mark_table, struct parameters parameters,
    struct bytes plan_table, uint32_t start, uint32_t end, struct room room, uint32_t number, uint32_t place);

/* Lists the most cycles that can be added to each job, into a list of the given length. Exactly the wanted numbers must be written, and what
 * stands before and after them must stay. */
void nearest_is(const char *name, struct bytes level_table, struct bytes job_table, size_t list_length, const struct list *wanted);
void nearest_altered_is(const char *name, struct bytes level_table, struct bytes job_table, struct parameters parameters, size_t list_length,
    const struct list *wanted);
/* The list must stay. */
void nearest_refused(const char *name, struct bytes level_table, struct bytes job_table, size_t list_length,
    struct ramyearly_nearest_answer wanted);
void nearest_altered_refused(const char *name, struct bytes level_table, struct bytes job_table, struct parameters parameters,
    size_t list_length, struct ramyearly_nearest_answer wanted);

/* rounds.c: the cases of laying out tasks. */
void rounds(void);
/* idle.c: the cases of an idle entry. */
void idle(void);
/* order.c: the cases of writing a plan in cell order. */
void order(void);
/* touching.c: the cases of what touches a span. */
void touching(void);
/* nearest.c: the cases of the job nearest to trouble. */
void nearest(void);
/* marks.c: the cases of handover marks. */
void marks(void);
/* boards.c: the cases of one plan on many boards. */
void boards(void);
/* fits.c: the cases of whether a plan fits. */
void fits(void);
/* parameters.c: the cases of site parameters. */
void parameters(void);
/* parameter_refusals.c: the cases where they are refused. */
void parameter_refusals(void);
/* short_plans.c: the cases of how many steps a plan has, and of the plan buffer. */
void short_plans(void);

#endif
