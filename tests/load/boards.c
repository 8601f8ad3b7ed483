#include "boards.h"

#include <string.h>

#include "sites.h"
#include "table.h"

/* So many changes are tried, one after another. */
enum { TRIES = 8 };

/* All by one factor, and rounded down. */
static void scale_voltages(struct numbers *numbers, struct paper_levels *board)
{
    uint64_t times = between(numbers, 1, 4), parts = between(numbers, 1, 3);
    for (unsigned i = 0; i < board->count; i++)
        board->voltage[i] = (uint32_t)(board->voltage[i] * times / parts);
}

/* Each by up to so much higher or lower, but not below the one before. */
static void shift_voltages(struct numbers *numbers, struct paper_levels *board)
{
    uint64_t most = ONE_OF(numbers, 1, 1, 5, 40), before = 1;
    for (unsigned i = 0; i < board->count; i++) {
        uint64_t shifted = board->voltage[i] + between(numbers, 0, 2 * most);
        board->voltage[i] = (uint32_t)(shifted < before + most ? before : shifted - most);
        before = board->voltage[i];
    }
}

/* On a straight line over the frequencies. The powers then rise faster and faster, so that mostly all levels work. */
static void straight_voltages(struct numbers *numbers, struct paper_levels *board)
{
    uint64_t first = between(numbers, 1, PAPER_VOLTAGE), rise = below(numbers, PAPER_VOLTAGE - first + 1), top = paper_top(board);
    for (unsigned i = 0; i < board->count; i++)
        board->voltage[i] = (uint32_t)(first + rise * board->frequency[i] / top);
}

/* No idle entry, or one of any draw that is allowed. */
static void change_idling(struct numbers *numbers, struct paper_levels *board)
{
    board->idle_entry = false;
    board->draw = 0;
    *board = with_idling(numbers, *board);
}

/* Below a level, mostly at its voltage: then it is dropped, unless idling draws power. */
static void add_level(struct numbers *numbers, struct paper_levels *board)
{
    unsigned at = (unsigned)below(numbers, board->count), after = board->count - at;
    uint32_t *frequency = board->frequency + at, *voltage = board->voltage + at;
    uint64_t low = at > 0 ? frequency[-1] + 1 : 1, least = at > 0 ? voltage[-1] : 1;
    if (board->count + board->idle_entry == PAPER_LEVELS || low == *frequency)
        return;
    memmove(frequency + 1, frequency, after * sizeof *frequency);
    memmove(voltage + 1, voltage, after * sizeof *voltage);
    *frequency = (uint32_t)between(numbers, low, *frequency - 1);
    *voltage = (uint32_t)ONE_OF(numbers, *voltage, *voltage, between(numbers, least, *voltage));
    board->count++;
}

/* Any but the top, which always works. */
static void remove_level(struct numbers *numbers, struct paper_levels *board)
{
    if (board->count < 2)
        return;
    board->count--;
    unsigned at = (unsigned)below(numbers, board->count), after = board->count - at;
    memmove(board->frequency + at, board->frequency + at + 1, after * sizeof *board->frequency);
    memmove(board->voltage + at, board->voltage + at + 1, after * sizeof *board->voltage);
}

static void change_board(struct numbers *numbers, struct paper_levels *board)
{
    static void (*const changes[])(struct numbers *, struct paper_levels *)
        = { scale_voltages, shift_voltages, shift_voltages, straight_voltages, change_idling, add_level, add_level, remove_level };
    changes[below(numbers, sizeof changes / sizeof *changes)](numbers, board);
}

static bool can_be_read(const struct paper_levels *board)
{
    static struct table table;
    struct paper_levels ignored;
    levels_table(&table, board);
    return paper_read_levels(bytes_of(&table), &ignored).number == 0;
}

/* The working levels and the idle entry. They are always of the board's type: fewer levels drop no further one. */
static struct paper_levels without_dropped(const struct paper_levels *board)
{
    struct paper_points points = paper_points(board);
    struct paper_levels working = { .idle_entry = board->idle_entry, .draw = board->draw };
    for (unsigned i = 0; i < board->count; i++)
        if (board->frequency[i] == points.frequency[working.count + 1]) {
            working.frequency[working.count] = board->frequency[i];
            working.voltage[working.count] = board->voltage[i];
            working.count++;
        }
    return working;
}

/* A change that makes a table of another type, or none that can be read, is left out. */
struct paper_levels other_board(struct numbers *numbers, const struct paper_levels *board)
{
    struct paper_levels other = one_in(numbers, 2) ? *board : without_dropped(board);
    for (unsigned tries = 0; tries < TRIES; tries++) {
        struct paper_levels changed = other;
        change_board(numbers, &changed);
        if (can_be_read(&changed) && paper_same_type(board, &changed))
            other = changed;
    }
    return other;
}
