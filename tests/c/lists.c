#include "support.h"

#include <string.h>

#include "calls.h"

/* The memory that a list stands in: longer than any of them, with numbers before the list and after it. */
enum { BEFORE = 8, MEMORY = 160 };

struct lists {
    uint32_t open[MEMORY], inside[MEMORY], steps[MEMORY];
};

static struct lists filled_lists(void)
{
    struct lists l;
    memset(&l, 0xa5, sizeof l);
    return l;
}

static void put_list(uint32_t *memory, const struct list *list)
{
    memcpy(memory + BEFORE, list->at, list->length * sizeof *list->at);
}

static struct ramyearly_touching_answer touching_in(struct lists *lists, struct bytes job_table, struct bytes mark_table,
    struct parameters parameters, struct bytes plan_table, uint32_t start, uint32_t end, struct room room)
{
    const uint8_t *jobs = job_table.at, *marks = mark_table.at, *plan = plan_table.at;
    size_t jobs_length = job_table.length, marks_length = mark_table.length, plan_length = plan_table.length;
    uint32_t free_ticks = parameters.free_ticks, margin = parameters.margin;
    uint32_t *open = lists->open + BEFORE, *inside = lists->inside + BEFORE, *steps = lists->steps + BEFORE;
    size_t open_length = room.open, inside_length = room.inside, steps_length = room.steps;
    return CALL_TOUCHING;
}

void touching_altered_is(const char *name, struct bytes job_table, struct bytes mark_table, struct parameters parameters, struct bytes plan_table,
    uint32_t start, uint32_t end, struct room room, const struct touched *wanted)
{
    struct lists written = filled_lists(), right = written;
    put_list(right.open, &wanted->open);
    put_list(right.inside, &wanted->inside);
    put_list(right.steps, &wanted->steps);
    struct ramyearly_touching_answer a = touching_in(&written, job_table, mark_table, parameters, plan_table, start, end, room);
    same(name, a.number, 0);
    same(name, a.place, 0);
    same(name, a.open, wanted->open.length);
    same(name, a.inside, wanted->inside.length);
    same(name, a.steps, wanted->steps.length);
    same(name, a.deadline, wanted->deadline);
    same(name, memcmp(&written, &right, sizeof right), 0);
}

void touching_marked_is(const char *name, struct bytes job_table, struct bytes mark_table, struct bytes plan_table, uint32_t start, uint32_t end,
    struct room room, const struct touched *wanted)
{
    touching_altered_is(name, job_table, mark_table, (struct parameters) { 0, 0, 0 }, plan_table, start, end, room, wanted);
}

void touching_is(const char *name, struct bytes job_table, struct bytes plan_table, uint32_t start, uint32_t end, struct room room,
    const struct touched *wanted)
{
    touching_marked_is(name, job_table, marks_at(""), plan_table, start, end, room, wanted);
}

void touching_altered_refused(const char *name, struct bytes job_table, struct bytes mark_table, struct parameters parameters,
    struct bytes plan_table, uint32_t start, uint32_t end, struct room room, uint32_t number, uint32_t place)
{
    struct lists written = filled_lists(), right = written;
    struct ramyearly_touching_answer a = touching_in(&written, job_table, mark_table, parameters, plan_table, start, end, room);
    same(name, a.number, number);
    same(name, a.place, place);
    same(name, a.open, 0);
    same(name, a.inside, 0);
    same(name, a.steps, 0);
    same(name, a.deadline, 0);
    same(name, memcmp(&written, &right, sizeof right), 0);
}

void touching_marked_refused(const char *name, struct bytes job_table, struct bytes mark_table, struct bytes plan_table, uint32_t start,
    uint32_t end, struct room room, uint32_t number, uint32_t place)
{
    touching_altered_refused(name, job_table, mark_table, (struct parameters) { 0, 0, 0 }, plan_table, start, end, room, number, place);
}

void touching_refused(const char *name, struct bytes job_table, struct bytes plan_table, uint32_t start, uint32_t end, struct room room,
    uint32_t number, uint32_t place)
{
    touching_marked_refused(name, job_table, marks_at(""), plan_table, start, end, room, number, place);
}

/* The memory of nearest's list. */
struct memory {
    uint32_t at[MEMORY];
};

static struct memory filled_memory(void)
{
    struct memory m;
    memset(&m, 0xa5, sizeof m);
    return m;
}

/* The numbers that must be written are none where the call is refused. */
static void nearest_in(const char *name, struct bytes level_table, struct bytes job_table, struct parameters parameters, size_t list_length,
    struct ramyearly_nearest_answer wanted, const struct list *numbers)
{
    const uint8_t *levels = level_table.at, *jobs = job_table.at;
    size_t levels_length = level_table.length, jobs_length = job_table.length;
    uint32_t highest = parameters.highest, free_ticks = parameters.free_ticks, margin = parameters.margin;
    struct memory written = filled_memory(), right = written;
    uint32_t *list = written.at + BEFORE;
    put_list(right.at, numbers);
    struct ramyearly_nearest_answer a = CALL_NEAREST;
    same(name, a.number, wanted.number);
    same(name, a.place, wanted.place);
    same(name, a.start, wanted.start);
    same(name, a.end, wanted.end);
    same(name, a.spare, wanted.spare);
    same(name, (int64_t)a.length, (int64_t)wanted.length);
    same(name, memcmp(&written, &right, sizeof right), 0);
}

void nearest_altered_is(const char *name, struct bytes level_table, struct bytes job_table, struct parameters parameters, size_t list_length,
    const struct list *wanted)
{
    nearest_in(name, level_table, job_table, parameters, list_length, (struct ramyearly_nearest_answer) { .length = wanted->length }, wanted);
}

void nearest_is(const char *name, struct bytes level_table, struct bytes job_table, size_t list_length, const struct list *wanted)
{
    nearest_altered_is(name, level_table, job_table, unaltered(level_table), list_length, wanted);
}

void nearest_altered_refused(const char *name, struct bytes level_table, struct bytes job_table, struct parameters parameters,
    size_t list_length, struct ramyearly_nearest_answer wanted)
{
    const struct list nothing = { .length = 0 };
    nearest_in(name, level_table, job_table, parameters, list_length, wanted, &nothing);
}

void nearest_refused(const char *name, struct bytes level_table, struct bytes job_table, size_t list_length,
    struct ramyearly_nearest_answer wanted)
{
    nearest_altered_refused(name, level_table, job_table, unaltered(level_table), list_length, wanted);
}
