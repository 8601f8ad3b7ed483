#include "parameters.h"

struct paper_parameters unaltered(const struct paper_levels *levels)
{
    return (struct paper_parameters) { levels->count, 0, 0 };
}

static uint64_t smaller(uint64_t one, uint64_t other)
{
    return one < other ? one : other;
}

struct paper_levels with_higher_levels(struct numbers *numbers, struct paper_levels levels)
{
    uint64_t frequency = paper_top(&levels), voltage = levels.voltage[levels.count - 1];
    for (uint64_t more = below(numbers, 4); more > 0; more--) {
        if (levels.count + levels.idle_entry == PAPER_LEVELS || frequency == PAPER_FREQUENCY)
            break;
        frequency += between(numbers, 1, smaller(PAPER_FREQUENCY - frequency, ONE_OF(numbers, 1, 3, PAPER_FREQUENCY)));
        voltage += below(numbers, smaller(PAPER_VOLTAGE - voltage, ONE_OF(numbers, 0, 3, PAPER_VOLTAGE)) + 1);
        levels.frequency[levels.count] = (uint32_t)frequency;
        levels.voltage[levels.count] = (uint32_t)voltage;
        levels.count++;
    }
    return levels;
}

/* Up to the latest deadline that is allowed. */
static void give_later_deadlines(struct numbers *numbers, struct paper_given *given)
{
    uint64_t most = PAPER_TIME;
    for (unsigned j = 0; j < given->jobs.count; j++)
        most = smaller(most, PAPER_TIME - given->jobs.deadline[j]);
    uint64_t few = smaller(most, between(numbers, 1, 10)), any = between(numbers, 0, most);
    uint32_t free_ticks = (uint32_t)ONE_OF(numbers, 0, 0, smaller(most, 1), few, few, few, any, most);
    for (unsigned j = 0; j < given->jobs.count; j++)
        given->jobs.deadline[j] += free_ticks;
    given->parameters.free_ticks = free_ticks;
}

/* The most cycles that come to no more with the margin, but at least one. */
static void give_fewer_cycles(struct numbers *numbers, struct paper_given *given)
{
    uint32_t margin = (uint32_t)ONE_OF(numbers, 0, 0, 0, 1, 10, 50, 99, PAPER_MARGIN, between(numbers, 1, PAPER_MARGIN));
    for (unsigned j = 0; j < given->jobs.count; j++) {
        uint64_t fewer = (uint64_t)given->jobs.cycles[j] * 100 / (100 + margin);
        given->jobs.cycles[j] = fewer > 0 ? (uint32_t)fewer : 1;
    }
    given->parameters.margin = margin;
}

struct paper_given any_given(struct numbers *numbers, struct paper_levels levels, struct paper_jobs jobs)
{
    struct paper_given given = { levels, jobs, unaltered(&levels) };
    if (one_in(numbers, 2))
        return given;
    given.levels = with_higher_levels(numbers, levels);
    give_later_deadlines(numbers, &given);
    give_fewer_cycles(numbers, &given);
    return given;
}

struct paper_parameters fitting_parameters(struct numbers *numbers, const struct paper_levels *levels, const struct paper_jobs *jobs)
{
    struct paper_parameters parameters = unaltered(levels);
    uint64_t most_free = PAPER_TIME, most_margin = PAPER_MARGIN;
    if (one_in(numbers, 2))
        return parameters;
    for (unsigned j = 0; j < jobs->count; j++) {
        most_free = smaller(most_free, jobs->deadline[j] - jobs->release[j] - 1);
        while (jobs->cycles[j] > most_cycles((uint32_t)most_margin))
            most_margin--;
    }
    parameters.highest = (uint32_t)(one_in(numbers, 2) ? levels->count : between(numbers, 1, levels->count));
    parameters.free_ticks = (uint32_t)ONE_OF(numbers, 0, smaller(most_free, 1), between(numbers, 0, most_free), most_free);
    parameters.margin = (uint32_t)ONE_OF(numbers, 0, smaller(most_margin, 1), between(numbers, 0, most_margin), most_margin);
    return parameters;
}

static uint32_t near_highest(struct numbers *numbers, const struct paper_given *given)
{
    uint64_t running = given->levels.count;
    return (uint32_t)ONE_OF(numbers, given->parameters.highest, running, running, between(numbers, 1, running), 1, 0, running + 1, running + 2,
        PAPER_LEVELS, running + 256, UINT32_MAX, any_number(numbers));
}

/* So many that one of the jobs has a tick left, none, or not even a deadline. */
static uint32_t near_free_ticks(struct numbers *numbers, const struct paper_given *given)
{
    if (given->jobs.count == 0 || one_in(numbers, 3))
        return (uint32_t)ONE_OF(numbers, given->parameters.free_ticks, 0, 0, 1, PAPER_TIME, PAPER_TIME + 1, UINT32_MAX, any_number(numbers));
    unsigned j = (unsigned)below(numbers, given->jobs.count);
    uint64_t deadline = given->jobs.deadline[j], window = deadline - given->jobs.release[j];
    return (uint32_t)ONE_OF(numbers, window - 1, window - 1, window - 1, window, window + 1, deadline, deadline + 1);
}

static uint32_t near_margin(struct numbers *numbers, const struct paper_given *given)
{
    return (uint32_t)ONE_OF(numbers, given->parameters.margin, given->parameters.margin, 0, 0, 1, between(numbers, 0, PAPER_MARGIN), 99, PAPER_MARGIN,
        PAPER_MARGIN + 1, 256, UINT32_MAX, any_number(numbers));
}

/* Mostly one is near a limit, and sometimes each of them. */
struct paper_parameters near_limits(struct numbers *numbers, const struct paper_given *given)
{
    struct paper_parameters parameters = given->parameters;
    uint64_t which = below(numbers, 4);
    if (which == 0 || which == 3)
        parameters.highest = near_highest(numbers, given);
    if (which == 1 || which == 3)
        parameters.free_ticks = near_free_ticks(numbers, given);
    if (which == 2 || which == 3)
        parameters.margin = near_margin(numbers, given);
    return parameters;
}

struct paper_parameters other_parameters(struct numbers *numbers, const struct paper_given *given)
{
    struct paper_parameters other = given->parameters;
    switch (below(numbers, 4)) {
    case 0:
        other.highest = (uint32_t)ONE_OF(numbers, other.highest - 1, other.highest + 1, given->levels.count);
        break;
    case 1:
        other.free_ticks = (uint32_t)ONE_OF(numbers, other.free_ticks - 1, other.free_ticks + 1, 0);
        break;
    case 2:
        other.margin = (uint32_t)ONE_OF(numbers, other.margin - 1, other.margin + 1, 0);
        break;
    default:
        return near_limits(numbers, given);
    }
    return other;
}

uint32_t most_cycles(uint32_t margin)
{
    return (uint32_t)((uint64_t)PAPER_CYCLES * 100 / (100 + margin));
}
