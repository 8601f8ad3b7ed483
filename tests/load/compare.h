/* One call of the archive, held against the paper. Every field of the answer must agree, and every byte that was lent. */
#ifndef COMPARE_H
#define COMPARE_H

#include "numbers.h"
#include "table.h"

enum { REFUSALS = 36 };

/* Sites that were altered: by fewer levels, free ticks or a margin; and what came of them. Of the jobs refused by 36, some have an emptied
 * window and some too many cycles. */
struct altered_tally {
    uint64_t fewer_levels, free_ticks, margins, plans, accepted, ordered, touched, nearest, emptied, too_many_cycles;
};

/* Plans that are as long as they may be: with jobs + intervals - 1 steps where there are more open pairs, with as many as open pairs where
 * these are fewer, and with as many as there can be at all. Spared are the plans in a buffer too short for a step in each open pair. */
struct short_tally {
    uint64_t at_limit, at_pairs, most_steps, spared;
};

/* Lists of the most cycles that jobs can have more: all of them; those with equal numbers, with some jobs that can have none and others that
 * can, with a job that can have fewer than its own window has, and with as many jobs as there can be. And the sets without a list: those
 * that are overfull, and those whose list was lent too short. */
struct nearest_tally {
    uint64_t lists, equal, some_full, other_window, most_jobs, overfull, too_short;
};

/* What was counted. by_number[0] counts the answers, and by_fits those calls that ask whether a plan fits. Of the plans, some have a
 * mark as a bound, and some have as many intervals or open pairs as there can be. Lists too short are those of touching, of which each
 * is counted. Of the plans that fit tiny sites, some are least and some are dearer. */
struct tally {
    uint64_t calls, plans, accepted, ordered, touched, disagreements, by_number[REFUSALS + 1], by_fits[REFUSALS + 1], too_short[PAPER_LISTS];
    uint64_t cut, most_intervals, most_pairs, least, dearer;
    struct altered_tally altered;
    struct short_tally short_plans;
    struct nearest_tally nearest;
};

/* Calls are counted here. */
extern struct tally *tally;
/* Called after a disagreement was printed. */
extern void (*on_disagreement)(void);

/* Maps the memory that is lent. Once, before all calls. */
void compare_start(void);

/* The tables of a site and its parameters, whether or not they are right. */
struct site_tables {
    const struct table *levels, *jobs, *marks;
    struct paper_parameters parameters;
};

void compare_setting(struct numbers *numbers, const struct table *levels, uint32_t highest, uint32_t length, uint64_t load);
/* Lent are the site's levels and jobs. */
void compare_spare(struct numbers *numbers, const struct site_tables *site, uint32_t start, uint32_t end);
/* Answers what the archive did. */
struct ramyearly_fits_answer compare_fits(struct numbers *numbers, const struct site_tables *site, const struct table *plan);
/* The same of the check. Whether the plan fits is asked beside it, and both answers are held against each other. */
struct ramyearly_check_answer compare_check(struct numbers *numbers, const struct site_tables *site, const struct table *plan,
    const struct table *prices);

/* What planning is lent: bytes, bytes, and 32-bit numbers. */
struct buffer_lengths {
    size_t plan, prices, shares;
};

/* Answers whether a plan came out. Then it stands in the two tables; it was judged by both checks, its shares and prices were
 * looked at. */
bool compare_plan(struct numbers *numbers, const struct site_tables *site, struct buffer_lengths lengths, struct table *plan, struct table *prices);

/* Lends a job buffer of that length. Answers whether a job table came out; then it stands in the table. */
bool compare_rounds(struct numbers *numbers, const struct table *tasks, size_t jobs_length, struct table *jobs);

/* Lends a buffer of that length. Answers whether a plan came out in order; then it stands in the table. It was accepted with the
 * figure of the plan given, and ordered again. */
bool compare_order(struct numbers *numbers, const struct site_tables *site, const struct table *plan, const struct table *prices,
    size_t ordered_length, struct table *ordered);

struct window {
    uint32_t start, end;
};

/* What touching is lent, in 32-bit numbers. */
struct list_lengths {
    size_t open, inside, steps;
};

/* Lent are the site's jobs and marks. */
void compare_touching(struct numbers *numbers, const struct site_tables *site, const struct table *plan, struct window span,
    struct list_lengths lengths);

/* Lends a list of that many 32-bit numbers, and the site's levels and jobs. Answers whether the list was written; then its numbers, which
 * were held against the window test, stand in the other list. */
bool compare_nearest(struct numbers *numbers, const struct site_tables *site, size_t list_length, uint32_t list[2 * PAPER_JOBS]);

/* The interval whose setting is asked for, by its length and load; the window whose spare is, and what touches it; and what planning
 * is lent. */
struct questions {
    uint32_t length;
    uint64_t load;
    struct window window;
    struct buffer_lengths buffers;
};

/* Two sites that must have the same answers: setting, spare, the most cycles that jobs can have more, planning with every byte that it
 * writes, and the check and the order of what it wrote and what touches the window by it. */
void compare_alike(struct numbers *numbers, const struct site_tables *one_site, const struct site_tables *other_site, struct questions questions);
/* Two boards of one type: the same, but each has its own energy. */
void compare_boards(struct numbers *numbers, const struct site_tables *one_site, const struct site_tables *other_site, struct questions questions);

/* Says it when a number is not the right one. */
void same(const char *what, int64_t found, int64_t wanted);

#endif
