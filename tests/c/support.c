#include "support.h"

#include <stdio.h>
#include <stdlib.h>
#include <string.h>

#include "calls.h"

int wrong;

static void put(struct bytes *b, unsigned width, uint64_t number)
{
    while (width--) {
        b->at[b->length++] = number & 255;
        number >>= 8;
    }
}

struct bytes table(unsigned width, unsigned count, const uint32_t *numbers, size_t n)
{
    struct bytes b = { .length = 0 };
    put(&b, 2, count);
    for (size_t i = 0; i < n; i++)
        put(&b, width, numbers[i]);
    return b;
}

struct bytes plan_of(unsigned intervals, unsigned count, const uint32_t (*steps)[3])
{
    struct bytes b = { .length = 0 };
    put(&b, 2, intervals);
    put(&b, 2, count);
    for (unsigned i = 0; i < count; i++)
        put(&b, 2, steps[i][0] * 64 + steps[i][1]);
    for (unsigned i = 0; i < count; i++)
        put(&b, 4, steps[i][2]);
    return b;
}

struct bytes prices_of(unsigned intervals, const uint32_t *ends, const uint8_t *prices)
{
    struct bytes b = table(4, intervals, ends, intervals);
    for (unsigned i = 0; i < intervals; i++)
        put(&b, 1, prices[i]);
    return b;
}

struct bytes cut(struct bytes b)
{
    b.length--;
    return b;
}

struct bytes extended(struct bytes b)
{
    put(&b, 1, 0);
    return b;
}

struct list list_of(const char *text)
{
    struct list list = { .length = 0 };
    char *rest;
    for (unsigned long number = strtoul(text, &rest, 10); rest != text; number = strtoul(text, &rest, 10)) {
        list.at[list.length++] = (uint32_t)number;
        text = rest;
    }
    return list;
}

struct bytes marks_at(const char *text)
{
    struct list ticks = list_of(text);
    return table(4, (unsigned)ticks.length, ticks.at, ticks.length);
}

struct bytes level_pair(void)
{
    return table(2, 2, (const uint32_t[]) { 2, 4, 10, 20 }, 4);
}

uint32_t running(struct bytes level_table)
{
    const uint8_t *at = level_table.at;
    uint32_t entries = at[0] + 256u * at[1], first = at[2] + 256u * at[3];
    return first == 0 ? entries - 1 : entries;
}

struct parameters unaltered(struct bytes level_table)
{
    return (struct parameters) { running(level_table), 0, 0 };
}

void same(const char *name, int64_t found, int64_t wanted)
{
    if (found != wanted) {
        printf("%s: %lld, but %lld is right\n", name, (long long)found, (long long)wanted);
        wrong = 1;
    }
}

void setting_altered_is(const char *name, struct bytes level_table, uint32_t highest, uint32_t length, uint64_t load,
    struct ramyearly_setting_answer wanted)
{
    const uint8_t *levels = level_table.at;
    size_t levels_length = level_table.length;
    struct ramyearly_setting_answer a = CALL_SETTING;
    same(name, a.number, wanted.number);
    same(name, a.place, wanted.place);
    same(name, a.band, wanted.band);
    same(name, a.gap, wanted.gap);
    same(name, a.extra, wanted.extra);
}

void setting_is(const char *name, struct bytes level_table, uint32_t length, uint64_t load, struct ramyearly_setting_answer wanted)
{
    setting_altered_is(name, level_table, running(level_table), length, load, wanted);
}

void spare_altered_is(const char *name, struct bytes level_table, struct bytes job_table, struct parameters parameters, uint32_t start, uint32_t end,
    struct ramyearly_spare_answer wanted)
{
    const uint8_t *levels = level_table.at, *jobs = job_table.at;
    size_t levels_length = level_table.length, jobs_length = job_table.length;
    uint32_t highest = parameters.highest, free_ticks = parameters.free_ticks, margin = parameters.margin;
    struct ramyearly_spare_answer a = CALL_SPARE;
    same(name, a.number, wanted.number);
    same(name, a.place, wanted.place);
    same(name, a.spare, wanted.spare);
}

void spare_is(const char *name, struct bytes level_table, struct bytes job_table, uint32_t start, uint32_t end, struct ramyearly_spare_answer wanted)
{
    spare_altered_is(name, level_table, job_table, unaltered(level_table), start, end, wanted);
}

void fits_altered_is(const char *name, struct bytes level_table, struct bytes job_table, struct bytes mark_table, struct parameters parameters,
    struct bytes plan_table, struct ramyearly_fits_answer wanted)
{
    const uint8_t *levels = level_table.at, *jobs = job_table.at, *marks = mark_table.at, *plan = plan_table.at;
    size_t levels_length = level_table.length, jobs_length = job_table.length, marks_length = mark_table.length;
    size_t plan_length = plan_table.length;
    uint32_t highest = parameters.highest, free_ticks = parameters.free_ticks, margin = parameters.margin;
    struct ramyearly_fits_answer a = CALL_FITS;
    same(name, a.number, wanted.number);
    same(name, a.place, wanted.place);
    same(name, a.energy, wanted.energy);
}

void fits_marked_is(const char *name, struct bytes level_table, struct bytes job_table, struct bytes mark_table, struct bytes plan_table,
    struct ramyearly_fits_answer wanted)
{
    fits_altered_is(name, level_table, job_table, mark_table, unaltered(level_table), plan_table, wanted);
}

void fits_is(const char *name, struct bytes level_table, struct bytes job_table, struct bytes plan_table, struct ramyearly_fits_answer wanted)
{
    fits_marked_is(name, level_table, job_table, marks_at(""), plan_table, wanted);
}

void check_altered_is(const char *name, struct bytes level_table, struct bytes job_table, struct bytes mark_table, struct parameters parameters,
    struct bytes plan_table, struct bytes price_list, struct ramyearly_check_answer wanted)
{
    const uint8_t *levels = level_table.at, *jobs = job_table.at, *marks = mark_table.at, *plan = plan_table.at, *prices = price_list.at;
    size_t levels_length = level_table.length, jobs_length = job_table.length, marks_length = mark_table.length;
    size_t plan_length = plan_table.length, prices_length = price_list.length;
    uint32_t highest = parameters.highest, free_ticks = parameters.free_ticks, margin = parameters.margin;
    struct ramyearly_check_answer a = CALL_CHECK;
    same(name, a.number, wanted.number);
    same(name, a.place, wanted.place);
    same(name, a.energy, wanted.energy);
}

void check_marked_is(const char *name, struct bytes level_table, struct bytes job_table, struct bytes mark_table, struct bytes plan_table,
    struct bytes price_list, struct ramyearly_check_answer wanted)
{
    check_altered_is(name, level_table, job_table, mark_table, unaltered(level_table), plan_table, price_list, wanted);
}

void check_is(const char *name, struct bytes level_table, struct bytes job_table, struct bytes plan_table, struct bytes price_list,
    struct ramyearly_check_answer wanted)
{
    check_marked_is(name, level_table, job_table, marks_at(""), plan_table, price_list, wanted);
}

static struct lent filled(void)
{
    struct lent l;
    memset(&l, 0xa5, sizeof l);
    return l;
}

struct lent plan_altered_is(const char *name, struct bytes level_table, struct bytes job_table, struct bytes mark_table, struct parameters parameters,
    size_t plan_length, size_t prices_length, size_t shares_length, struct ramyearly_plan_answer wanted)
{
    const uint8_t *levels = level_table.at, *jobs = job_table.at, *marks = mark_table.at;
    size_t levels_length = level_table.length, jobs_length = job_table.length, marks_length = mark_table.length;
    uint32_t highest = parameters.highest, free_ticks = parameters.free_ticks, margin = parameters.margin;
    struct lent before = filled(), after = before;
    uint8_t *plan = after.plan, *prices = after.prices;
    uint32_t *shares = after.shares;
    struct ramyearly_plan_answer a = CALL_PLAN;
    same(name, a.number, wanted.number);
    same(name, a.place, wanted.place);
    same(name, a.intervals, wanted.intervals);
    same(name, a.steps, wanted.steps);
    same(name, a.energy, wanted.energy);
    same(name, a.start, wanted.start);
    same(name, a.end, wanted.end);
    same(name, a.spare, wanted.spare);
    if (a.number)
        same(name, memcmp(&before, &after, sizeof before), 0);
    return after;
}

struct lent plan_marked_is(const char *name, struct bytes level_table, struct bytes job_table, struct bytes mark_table, size_t plan_length,
    size_t prices_length, size_t shares_length, struct ramyearly_plan_answer wanted)
{
    return plan_altered_is(name, level_table, job_table, mark_table, unaltered(level_table), plan_length, prices_length, shares_length, wanted);
}

struct lent plan_is(const char *name, struct bytes level_table, struct bytes job_table, size_t plan_length, size_t prices_length, size_t shares_length,
    struct ramyearly_plan_answer wanted)
{
    return plan_marked_is(name, level_table, job_table, marks_at(""), plan_length, prices_length, shares_length, wanted);
}

void written_is(const char *name, struct lent found, struct bytes plan, struct bytes prices, const uint32_t *shares, size_t count)
{
    struct lent wanted = filled();
    memcpy(wanted.plan, plan.at, plan.length);
    memcpy(wanted.prices, prices.at, prices.length);
    memcpy(wanted.shares, shares, count * sizeof *shares);
    same(name, memcmp(found.plan, wanted.plan, sizeof wanted.plan), 0);
    same(name, memcmp(found.prices, wanted.prices, sizeof wanted.prices), 0);
    same(name, memcmp(found.shares, wanted.shares, sizeof wanted.shares), 0);
}

/* The bytes, and the pattern up to the end of their room. */
static struct bytes in_filled(struct bytes b)
{
    memset(b.at + b.length, 0xa5, sizeof b.at - b.length);
    return b;
}

struct bytes rounds_is(const char *name, struct bytes task_table, size_t jobs_length, struct ramyearly_rounds_answer wanted, struct bytes job_table)
{
    const uint8_t *tasks = task_table.at;
    size_t tasks_length = task_table.length;
    struct bytes written = in_filled((struct bytes) { .length = 0 }), right = in_filled(job_table);
    uint8_t *jobs = written.at;
    struct ramyearly_rounds_answer a = CALL_ROUNDS;
    same(name, a.number, wanted.number);
    same(name, a.place, wanted.place);
    same(name, a.length, wanted.length);
    same(name, a.multiple, wanted.multiple);
    same(name, wanted.length, job_table.length);
    same(name, memcmp(written.at, right.at, sizeof right.at), 0);
    written.length = wanted.length;
    return written;
}

void rounds_refused(const char *name, struct bytes task_table, size_t jobs_length, uint32_t number, uint32_t place)
{
    rounds_is(name, task_table, jobs_length, (struct ramyearly_rounds_answer) { .number = number, .place = place }, (struct bytes) { .length = 0 });
}

struct bytes order_altered_is(const char *name, struct bytes level_table, struct bytes job_table, struct bytes mark_table,
    struct parameters parameters, struct bytes plan_table, struct bytes price_list, size_t ordered_length, struct ramyearly_order_answer wanted,
    struct bytes ordered_plan)
{
    const uint8_t *levels = level_table.at, *jobs = job_table.at, *marks = mark_table.at, *plan = plan_table.at, *prices = price_list.at;
    size_t levels_length = level_table.length, jobs_length = job_table.length, marks_length = mark_table.length;
    size_t plan_length = plan_table.length, prices_length = price_list.length;
    uint32_t highest = parameters.highest, free_ticks = parameters.free_ticks, margin = parameters.margin;
    struct bytes written = in_filled((struct bytes) { .length = 0 }), right = in_filled(ordered_plan);
    uint8_t *ordered = written.at;
    struct ramyearly_order_answer a = CALL_ORDER;
    same(name, a.number, wanted.number);
    same(name, a.place, wanted.place);
    same(name, a.length, wanted.length);
    same(name, wanted.length, ordered_plan.length);
    same(name, memcmp(written.at, right.at, sizeof right.at), 0);
    written.length = wanted.length;
    return written;
}

struct bytes order_marked_is(const char *name, struct bytes level_table, struct bytes job_table, struct bytes mark_table, struct bytes plan_table,
    struct bytes price_list, size_t ordered_length, struct ramyearly_order_answer wanted, struct bytes ordered_plan)
{
    return order_altered_is(name, level_table, job_table, mark_table, unaltered(level_table), plan_table, price_list, ordered_length, wanted,
        ordered_plan);
}

struct bytes order_is(const char *name, struct bytes level_table, struct bytes job_table, struct bytes plan_table, struct bytes price_list,
    size_t ordered_length, struct ramyearly_order_answer wanted, struct bytes ordered_plan)
{
    return order_marked_is(name, level_table, job_table, marks_at(""), plan_table, price_list, ordered_length, wanted, ordered_plan);
}

void order_altered_refused(const char *name, struct bytes level_table, struct bytes job_table, struct bytes mark_table, struct parameters parameters,
    struct bytes plan_table, struct bytes price_list, size_t ordered_length, uint32_t number, uint32_t place)
{
    order_altered_is(name, level_table, job_table, mark_table, parameters, plan_table, price_list, ordered_length,
        (struct ramyearly_order_answer) { .number = number, .place = place }, (struct bytes) { .length = 0 });
}

void order_marked_refused(const char *name, struct bytes level_table, struct bytes job_table, struct bytes mark_table, struct bytes plan_table,
    struct bytes price_list, size_t ordered_length, uint32_t number, uint32_t place)
{
    order_altered_refused(name, level_table, job_table, mark_table, unaltered(level_table), plan_table, price_list, ordered_length, number, place);
}

void order_refused(const char *name, struct bytes level_table, struct bytes job_table, struct bytes plan_table, struct bytes price_list,
    size_t ordered_length, uint32_t number, uint32_t place)
{
    order_marked_refused(name, level_table, job_table, marks_at(""), plan_table, price_list, ordered_length, number, place);
}
