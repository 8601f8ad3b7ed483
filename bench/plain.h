/* The plain planner: the same operation as ramyearly_plan, with the same algorithm, unproved. It knows no idle entry and no site
 * parameters: no site of the benchmark has an entry, or parameters that alter anything. */
#ifndef PLAIN_H
#define PLAIN_H

#include "ramyearly.h"

struct ramyearly_plan_answer plain_plan(
    const uint8_t *levels, size_t levels_length,
    const uint8_t *jobs, size_t jobs_length,
    const uint8_t *marks, size_t marks_length,
    uint8_t *plan, size_t plan_length,
    uint8_t *prices, size_t prices_length,
    uint32_t *shares, size_t shares_length);

#endif
