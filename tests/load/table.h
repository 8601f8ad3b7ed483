/* Tables in bytes, made field by field. */
#ifndef TABLE_H
#define TABLE_H

#include "paper/paper.h"

/* Room for the longest plan that its 16-bit step count can announce, and some bytes more. */
enum { TABLE_ROOM = 4 + 6 * 65535 + 64 };

struct table {
    size_t length;
    uint8_t at[TABLE_ROOM];
};

/* A plan, decoded. */
struct plan {
    unsigned intervals, steps;
    uint16_t cell[65535];
    uint32_t cycles[65535];
};

/* A price list, decoded. */
struct prices {
    unsigned intervals;
    uint32_t end[PAPER_INTERVALS];
    uint8_t price[PAPER_INTERVALS];
};

struct paper_bytes bytes_of(const struct table *table);
bool table_equals(const struct table *table, const struct table *other);
/* Copies the bytes to a table. */
void table_keep(struct table *table, struct paper_bytes bytes);
void table_set(struct table *table, size_t at, unsigned width, uint32_t number);

/* The idle entry first, where there is one. */
void levels_table(struct table *table, const struct paper_levels *levels);
void jobs_table(struct table *table, const struct paper_jobs *jobs);
void marks_table(struct table *table, const struct paper_marks *marks);
/* All three, as the site was given. */
void tables_of_site(const struct paper_site *site, struct table *levels, struct table *jobs, struct table *marks);
/* A table of that many tasks, even more than are allowed: the given ones, and after the last the same again. */
void tasks_table(struct table *table, unsigned count, const struct paper_tasks *tasks);
void plan_table(struct table *table, const struct plan *plan);
void prices_table(struct table *table, const struct prices *prices);

/* Adds a step, where it has cycles and the count has room. */
void plan_add_step(struct plan *plan, unsigned interval, unsigned job, uint64_t cycles);
/* Copies the steps that the plan has. */
void plan_copy(struct plan *copy, const struct plan *plan);

/* From the bytes of a plan or list that has its right length. */
void plan_of_table(struct plan *plan, const struct table *table);
void prices_of_table(struct prices *prices, const struct table *table);

#endif
