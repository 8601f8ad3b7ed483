#include "buffers.h"

size_t any_buffer(struct numbers *numbers, size_t wanted)
{
    if (wanted > 0 && one_in(numbers, 6))
        return (size_t)ONE_OF(numbers, wanted - 1, wanted - 1, 0, below(numbers, wanted));
    return wanted + (size_t)ONE_OF(numbers, 0, 0, 1, MOST_MORE);
}

static size_t plan_length(unsigned steps)
{
    return 4 + 6 * (size_t)steps;
}

/* Some are too short for a step in each open pair. */
static size_t any_plan_buffer(struct numbers *numbers, const struct paper_site *site)
{
    size_t wanted = plan_length(paper_step_limit(site)), all_pairs = plan_length(paper_pairs(&site->intervals));
    return one_in(numbers, 4) ? (size_t)between(numbers, wanted, all_pairs) : any_buffer(numbers, wanted);
}

struct buffer_lengths any_buffers(struct numbers *numbers, const struct paper_site *site)
{
    struct buffer_lengths wanted = enough(site), lengths;
    lengths.plan = any_plan_buffer(numbers, site);
    lengths.prices = any_buffer(numbers, wanted.prices);
    lengths.shares = any_buffer(numbers, wanted.shares);
    return lengths;
}

struct buffer_lengths enough(const struct paper_site *site)
{
    unsigned n = site->intervals.count;
    return (struct buffer_lengths) { plan_length(paper_step_limit(site)), 2 + 5 * (size_t)n, (size_t)site->jobs.count * n };
}
