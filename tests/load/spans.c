#include "spans.h"

/* A release, a deadline, one beside them, a limit, or any number. */
static uint32_t any_time(struct numbers *numbers, const struct paper_jobs *jobs)
{
    if (jobs->count == 0 || one_in(numbers, 6))
        return (uint32_t)ONE_OF(numbers, 0, PAPER_TIME, PAPER_TIME + 1, UINT32_MAX, any_number(numbers));
    unsigned j = (unsigned)below(numbers, jobs->count);
    uint64_t time = one_in(numbers, 2) ? jobs->release[j] : jobs->deadline[j];
    return (uint32_t)ONE_OF(numbers, time, time, time, time - 1, time + 1);
}

struct window any_window(struct numbers *numbers, const struct paper_jobs *jobs)
{
    uint32_t start = any_time(numbers, jobs), end = any_time(numbers, jobs);
    bool turn = start > end && !one_in(numbers, 8);
    return (struct window) { turn ? end : start, turn ? start : end };
}

/* One of the intervals, or none where there is none; sometimes one tick more or less at either end. */
static struct window near_interval(struct numbers *numbers, const struct paper_intervals *intervals)
{
    unsigned i = intervals->count > 0 ? (unsigned)below(numbers, intervals->count) : 0;
    uint64_t start = intervals->bound[i], end = intervals->count > 0 ? intervals->bound[i + 1] : start;
    start = ONE_OF(numbers, start, start, start + 1, start - 1);
    end = ONE_OF(numbers, end, end, end + 1, end - 1);
    return (struct window) { (uint32_t)start, (uint32_t)end };
}

static struct window one_span(struct numbers *numbers, const struct paper_site *site)
{
    uint32_t start = any_time(numbers, &site->jobs);
    switch (below(numbers, 8)) {
    case 0:
        return (struct window) { start, start + (uint32_t)between(numbers, 1, 2) };
    case 1:
    case 2:
        return near_interval(numbers, &site->intervals);
    case 3:
        return (struct window) { 0, (uint32_t)ONE_OF(numbers, PAPER_TIME, PAPER_TIME, PAPER_TIME + 1, start) };
    default:
        return any_window(numbers, &site->jobs);
    }
}

static bool is_wrong(struct window span)
{
    return span.start >= span.end || span.end > PAPER_TIME;
}

/* A wrong one is made again, up to two times. */
struct window any_span(struct numbers *numbers, const struct paper_site *site)
{
    struct window span = one_span(numbers, site);
    for (unsigned i = 0; i < 2 && is_wrong(span); i++)
        span = one_span(numbers, site);
    return span;
}
