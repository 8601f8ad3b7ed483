#include "loads.h"

uint32_t any_length(struct numbers *numbers)
{
    if (one_in(numbers, 8))
        return (uint32_t)ONE_OF(numbers, 0, PAPER_TIME + 1, UINT32_MAX, any_number(numbers));
    return (uint32_t)(one_in(numbers, 2) ? between(numbers, 1, 10) : ONE_OF(numbers, 1, 999999, PAPER_TIME, between(numbers, 1, PAPER_TIME)));
}

uint64_t any_load(struct numbers *numbers, const struct paper_levels *given, uint32_t length)
{
    uint64_t end = (uint64_t)length * given->frequency[below(numbers, given->count)];
    return one_in(numbers, 3) ? below(numbers, end + 1) : ONE_OF(numbers, 0, 1, end, end - 1, end + 1, UINT64_MAX, any_number(numbers));
}
