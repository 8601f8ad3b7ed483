#include "damage.h"

#include <string.h>

static uint32_t field(const struct table *table, size_t at, unsigned width)
{
    return at + width <= table->length ? paper_number(bytes_of(table), at, width) : 0;
}

/* Writes only within the table. */
static void put(struct table *table, size_t at, unsigned width, uint64_t number)
{
    if (at + width <= table->length)
        table_set(table, at, width, (uint32_t)number);
}

static void cut(struct numbers *numbers, struct table *table)
{
    size_t most = table->length;
    if (most == 0)
        return;
    table->length = one_in(numbers, 2) ? most - 1 : below(numbers, one_in(numbers, 2) && most > 4 ? 4 : most);
}

/* By one byte, by some, or by as many as a length cut to 8 or 16 bits would not show. */
static void extend(struct numbers *numbers, struct table *table)
{
    size_t more = one_in(numbers, 2) ? 1 : one_in(numbers, 16) ? ONE_OF(numbers, 256, 65536) : between(numbers, 1, 13);
    uint8_t byte = any_byte(numbers);
    while (more-- > 0 && table->length < TABLE_ROOM)
        table->at[table->length++] = byte;
}

void damage_bytes(struct numbers *numbers, struct table *table)
{
    switch (below(numbers, 3)) {
    case 0:
        cut(numbers, table);
        break;
    case 1:
        extend(numbers, table);
        break;
    default:
        if (table->length > 0)
            table->at[below(numbers, table->length)] ^= (uint8_t)(1u << below(numbers, 8));
    }
}

void any_bytes(struct numbers *numbers, struct table *table, unsigned most, unsigned count)
{
    table->length = below(numbers, most + 1);
    for (size_t i = 0; i < table->length; i++)
        table->at[i] = any_byte(numbers);
    if (one_in(numbers, 2))
        put(table, 0, 2, below(numbers, count + 1));
}

/* A count near its limit, near the right one, or equal to it in the low byte. */
static uint64_t wrong_count(struct numbers *numbers, uint64_t count, uint64_t limit)
{
    return ONE_OF(numbers, 0, limit, limit + 1, count + 1, count - 1, count + 256, 65535, any_number(numbers)) & 65535;
}

static void damage_frequency(struct numbers *numbers, struct table *table, unsigned i)
{
    uint64_t before = i > 0 ? field(table, 2 * i, 2) : 0, after = field(table, 4 + 2 * i, 2);
    put(table, 2 + 2 * i, 2, ONE_OF(numbers, 0, before, before - 1, after, PAPER_FREQUENCY, PAPER_FREQUENCY + 1, 65535, any_number(numbers)));
}

static void damage_voltage(struct numbers *numbers, struct table *table, unsigned count, unsigned i)
{
    size_t at = 2 + 2 * count + 2 * i;
    uint64_t before = i > 0 ? field(table, at - 2, 2) : 0;
    put(table, at, 2, ONE_OF(numbers, 0, before, before - 1, PAPER_VOLTAGE, PAPER_VOLTAGE + 1, 65535, any_number(numbers)));
}

/* Puts a 16-bit number between the bytes of a table that goes so far. */
static void insert(struct table *table, size_t at, uint64_t number)
{
    if (at > table->length || table->length + 2 > TABLE_ROOM)
        return;
    memmove(table->at + at + 2, table->at + at, table->length - at);
    table->length += 2;
    put(table, at, 2, number);
}

/* The table has one entry more, also past the 8 that are allowed. */
static void insert_idle_entry(struct table *table, unsigned count, unsigned i, uint64_t draw)
{
    put(table, 0, 2, count + 1);
    insert(table, 2 + 2 * (size_t)i, 0);
    insert(table, 2 + 2 * ((size_t)count + 1) + 2 * (size_t)i, draw);
}

static void leave_idle_entry(struct table *table, uint64_t draw)
{
    table->length = 6;
    put(table, 0, 2, 1);
    put(table, 2, 2, 0);
    put(table, 4, 2, draw);
}

/* A draw just below the power of the level after it, the same, or above. */
static void damage_draw(struct numbers *numbers, struct table *table, unsigned count)
{
    size_t at = 2 + 2 * (size_t)count;
    uint64_t frequency = field(table, 4, 2), voltage = field(table, at + 2, 2), thousands = frequency * voltage * voltage / 1000;
    put(table, at, 2, ONE_OF(numbers, 0, 1, thousands - 1, thousands, thousands, thousands + 1, PAPER_DRAW, any_number(numbers)));
}

/* It stands alone, at another place, again after itself, or has another draw. */
static void damage_idle_entry(struct numbers *numbers, struct table *table, unsigned count)
{
    uint64_t draw = ONE_OF(numbers, 0, 1, 10, PAPER_DRAW, any_number(numbers)), place = between(numbers, 0, count);
    switch (below(numbers, 4)) {
    case 0:
        leave_idle_entry(table, draw);
        break;
    case 1:
        insert_idle_entry(table, count, (unsigned)place, draw);
        break;
    default:
        if (field(table, 2, 2) != 0) {
            insert_idle_entry(table, count, 0, draw);
            count++;
        }
        damage_draw(numbers, table, count);
    }
}

void damage_levels(struct numbers *numbers, struct table *table)
{
    unsigned count = field(table, 0, 2), i = (unsigned)below(numbers, count > 0 ? count : 1);
    switch (below(numbers, 8)) {
    case 0:
        put(table, 0, 2, wrong_count(numbers, count, PAPER_LEVELS));
        break;
    case 1:
    case 2:
        damage_frequency(numbers, table, i);
        break;
    case 3:
    case 4:
        damage_voltage(numbers, table, count, i);
        break;
    case 5:
    case 6:
        damage_idle_entry(numbers, table, count);
        break;
    default:
        damage_bytes(numbers, table);
    }
}

static void damage_window(struct numbers *numbers, struct table *table, unsigned i)
{
    size_t at = 2 + 8 * (size_t)i;
    uint64_t release = field(table, at, 4), deadline = field(table, at + 4, 4);
    if (one_in(numbers, 2))
        put(table, at, 4, ONE_OF(numbers, deadline, deadline - 1, deadline + 1, PAPER_TIME, UINT32_MAX, any_number(numbers)));
    else
        put(table, at + 4, 4, ONE_OF(numbers, release, release - 1, release + 1, PAPER_TIME, PAPER_TIME + 1, 0, UINT32_MAX, any_number(numbers)));
}

static void damage_cycles(struct numbers *numbers, struct table *table, unsigned count, unsigned i)
{
    put(table, 2 + 8 * (size_t)count + 4 * (size_t)i, 4, ONE_OF(numbers, 0, 1, PAPER_CYCLES, PAPER_CYCLES + 1, UINT32_MAX, any_number(numbers)));
}

void damage_jobs(struct numbers *numbers, struct table *table)
{
    unsigned count = field(table, 0, 2), i = (unsigned)below(numbers, count > 0 ? count : 1);
    switch (below(numbers, 6)) {
    case 0:
        put(table, 0, 2, wrong_count(numbers, count, PAPER_JOBS));
        break;
    case 1:
    case 2:
        damage_window(numbers, table, i);
        break;
    case 3:
    case 4:
        damage_cycles(numbers, table, count, i);
        break;
    default:
        damage_bytes(numbers, table);
    }
}

/* The ticks from one on: rising by a step, or equal where that is 0. */
static void set_marks(struct table *table, unsigned count, uint64_t first, uint64_t step)
{
    table->length = 2 + 4 * (size_t)count;
    put(table, 0, 2, count);
    for (unsigned i = 0; i < count; i++)
        put(table, 2 + 4 * (size_t)i, 4, first + i * step);
}

/* As late as the one before or the one after, beside them, or the latest or the first there is. */
static void damage_tick(struct numbers *numbers, struct table *table, unsigned i)
{
    size_t at = 2 + 4 * (size_t)i;
    uint64_t before = i > 0 ? field(table, at - 4, 4) : 0, after = field(table, at + 4, 4);
    put(table, at, 4, ONE_OF(numbers, 0, before, before - 1, after, after + 1, UINT32_MAX, any_number(numbers)));
}

/* A table without ticks has none to damage: it gets equal ones. */
void damage_marks(struct numbers *numbers, struct table *table)
{
    unsigned count = field(table, 0, 2), i = (unsigned)below(numbers, count > 0 ? count : 1);
    uint64_t tick = one_in(numbers, 2) ? below(numbers, 10) : any_number(numbers);
    switch (below(numbers, 6)) {
    case 0:
        put(table, 0, 2, wrong_count(numbers, count, PAPER_MARKS));
        break;
    case 1:
        set_marks(table, (unsigned)between(numbers, PAPER_MARKS, PAPER_MARKS + 2), tick, 1);
        break;
    case 2:
    case 3:
        if (count > 0)
            damage_tick(numbers, table, i);
        else
            set_marks(table, (unsigned)between(numbers, 2, PAPER_MARKS), tick, 0);
        break;
    case 4:
        table->length = below(numbers, 2);
        break;
    default:
        damage_bytes(numbers, table);
    }
}

/* Windows that end with the period, a tick later, or so late that phase + deadline looks small in 32 bits. */
static void damage_task_window(struct numbers *numbers, struct table *table, unsigned count, unsigned i)
{
    size_t phase_at = 2 + 8 * (size_t)i, deadline_at = phase_at + 8 * (size_t)count;
    uint64_t phase = field(table, phase_at, 4), period = field(table, phase_at + 4, 4), deadline = field(table, deadline_at, 4);
    uint64_t wrap = (uint64_t)1 << 32;
    switch (below(numbers, 3)) {
    case 0:
        put(table, phase_at, 4, ONE_OF(numbers, period - deadline, period - deadline + 1, period,
            wrap - deadline, wrap - deadline + 1, UINT32_MAX, any_number(numbers)));
        break;
    case 1:
        put(table, phase_at + 4, 4, ONE_OF(numbers, 0, phase + deadline, phase + deadline - 1, phase, deadline,
            UINT32_MAX, any_number(numbers)));
        break;
    default:
        put(table, deadline_at, 4, ONE_OF(numbers, 0, period - phase, period - phase + 1, period + 1,
            wrap - phase, wrap - phase + 1, UINT32_MAX, any_number(numbers)));
    }
}

static void damage_task_cycles(struct numbers *numbers, struct table *table, unsigned count, unsigned i)
{
    put(table, 2 + 8 * (size_t)count + 8 * (size_t)i + 4, 4, ONE_OF(numbers, 0, 1, PAPER_CYCLES, PAPER_CYCLES + 1, UINT32_MAX, any_number(numbers)));
}

void damage_tasks(struct numbers *numbers, struct table *table)
{
    unsigned count = field(table, 0, 2), i = (unsigned)below(numbers, count > 0 ? count : 1);
    switch (below(numbers, 6)) {
    case 0:
        put(table, 0, 2, wrong_count(numbers, count, PAPER_TASKS));
        break;
    case 1:
    case 2:
    case 3:
        damage_task_window(numbers, table, count, i);
        break;
    case 4:
        damage_task_cycles(numbers, table, count, i);
        break;
    default:
        damage_bytes(numbers, table);
    }
}
