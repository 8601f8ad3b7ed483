#include "table.h"

#include <string.h>

struct paper_bytes bytes_of(const struct table *table)
{
    return (struct paper_bytes) { table->at, table->length };
}

bool table_equals(const struct table *table, const struct table *other)
{
    return table->length == other->length && memcmp(table->at, other->at, table->length) == 0;
}

void table_keep(struct table *table, struct paper_bytes bytes)
{
    table->length = bytes.length;
    for (size_t i = 0; i < bytes.length; i++)
        table->at[i] = bytes.at[i];
}

void table_set(struct table *table, size_t at, unsigned width, uint32_t number)
{
    for (unsigned i = 0; i < width; i++)
        table->at[at + i] = (uint8_t)(number >> (8 * i));
}

static void add(struct table *table, unsigned width, uint32_t number)
{
    table_set(table, table->length, width, number);
    table->length += width;
}

void levels_table(struct table *table, const struct paper_levels *levels)
{
    table->length = 0;
    add(table, 2, levels->count + levels->idle_entry);
    if (levels->idle_entry)
        add(table, 2, 0);
    for (unsigned i = 0; i < levels->count; i++)
        add(table, 2, levels->frequency[i]);
    if (levels->idle_entry)
        add(table, 2, levels->draw);
    for (unsigned i = 0; i < levels->count; i++)
        add(table, 2, levels->voltage[i]);
}

void jobs_table(struct table *table, const struct paper_jobs *jobs)
{
    table->length = 0;
    add(table, 2, jobs->count);
    for (unsigned i = 0; i < jobs->count; i++) {
        add(table, 4, jobs->release[i]);
        add(table, 4, jobs->deadline[i]);
    }
    for (unsigned i = 0; i < jobs->count; i++)
        add(table, 4, jobs->cycles[i]);
}

void marks_table(struct table *table, const struct paper_marks *marks)
{
    table->length = 0;
    add(table, 2, marks->count);
    for (unsigned i = 0; i < marks->count; i++)
        add(table, 4, marks->tick[i]);
}

void tables_of_site(const struct paper_site *site, struct table *levels, struct table *jobs, struct table *marks)
{
    levels_table(levels, &site->given.levels);
    jobs_table(jobs, &site->given.jobs);
    marks_table(marks, &site->marks);
}

void tasks_table(struct table *table, unsigned count, const struct paper_tasks *tasks)
{
    table->length = 0;
    add(table, 2, count);
    for (unsigned i = 0; i < count; i++) {
        add(table, 4, tasks->phase[i % tasks->count]);
        add(table, 4, tasks->period[i % tasks->count]);
    }
    for (unsigned i = 0; i < count; i++) {
        add(table, 4, tasks->deadline[i % tasks->count]);
        add(table, 4, tasks->cycles[i % tasks->count]);
    }
}

void plan_table(struct table *table, const struct plan *plan)
{
    table->length = 0;
    add(table, 2, plan->intervals);
    add(table, 2, plan->steps);
    for (unsigned i = 0; i < plan->steps; i++)
        add(table, 2, plan->cell[i]);
    for (unsigned i = 0; i < plan->steps; i++)
        add(table, 4, plan->cycles[i]);
}

void prices_table(struct table *table, const struct prices *prices)
{
    table->length = 0;
    add(table, 2, prices->intervals);
    for (unsigned i = 0; i < prices->intervals; i++)
        add(table, 4, prices->end[i]);
    for (unsigned i = 0; i < prices->intervals; i++)
        add(table, 1, prices->price[i]);
}

void plan_add_step(struct plan *plan, unsigned interval, unsigned job, uint64_t cycles)
{
    if (plan->steps < 65535 && cycles > 0) {
        plan->cell[plan->steps] = (uint16_t)(interval * 64 + job);
        plan->cycles[plan->steps] = (uint32_t)cycles;
        plan->steps++;
    }
}

void plan_copy(struct plan *copy, const struct plan *plan)
{
    copy->intervals = plan->intervals;
    copy->steps = plan->steps;
    memcpy(copy->cell, plan->cell, plan->steps * sizeof *plan->cell);
    memcpy(copy->cycles, plan->cycles, plan->steps * sizeof *plan->cycles);
}

void plan_of_table(struct plan *plan, const struct table *table)
{
    struct paper_bytes bytes = bytes_of(table);
    plan->intervals = paper_number(bytes, 0, 2);
    plan->steps = paper_number(bytes, 2, 2);
    for (unsigned i = 0; i < plan->steps; i++) {
        plan->cell[i] = (uint16_t)paper_number(bytes, 4 + 2 * i, 2);
        plan->cycles[i] = paper_number(bytes, 4 + 2 * plan->steps + 4 * i, 4);
    }
}

void prices_of_table(struct prices *prices, const struct table *table)
{
    struct paper_bytes bytes = bytes_of(table);
    prices->intervals = paper_number(bytes, 0, 2);
    for (unsigned i = 0; i < prices->intervals; i++) {
        prices->end[i] = paper_number(bytes, 2 + 4 * i, 4);
        prices->price[i] = table->at[2 + 4 * prices->intervals + i];
    }
}
