/* Reading the level table and the job table: refusals 1 to 10, 31 and 32. */
#include "paper.h"

/* Little-endian. */
uint32_t paper_number(struct paper_bytes bytes, size_t at, unsigned width)
{
    uint32_t number = 0;
    for (unsigned i = 0; i < width; i++)
        number |= (uint32_t)bytes.at[at + i] << (8 * i);
    return number;
}

struct paper_refusal paper_refuse(uint32_t number, uint32_t place)
{
    return (struct paper_refusal) { number, place };
}

/* The number by which running level i is refused, or 0. The first one has no level before it, with an idle entry or without,
 * and must be above the draw. */
static uint32_t level_fault(const struct paper_levels *levels, unsigned i)
{
    uint32_t frequency = levels->frequency[i], voltage = levels->voltage[i];
    if (frequency < 1 || frequency > PAPER_FREQUENCY || (i > 0 && frequency <= levels->frequency[i - 1]))
        return 4;
    if (voltage < 1 || voltage > PAPER_VOLTAGE || (i > 0 && voltage < levels->voltage[i - 1]))
        return 5;
    if (i == 0 && levels->idle_entry && paper_idle_power(levels) >= paper_power(levels, i))
        return 32;
    return 0;
}

/* The idle entry, where the first frequency is 0. Answers the number of entries that it takes. */
static unsigned idle_entries(struct paper_bytes bytes, unsigned v, struct paper_levels *levels)
{
    levels->idle_entry = paper_number(bytes, 2, 2) == 0;
    levels->draw = levels->idle_entry ? paper_number(bytes, 2 + 2 * v, 2) : 0;
    return levels->idle_entry ? 1 : 0;
}

struct paper_refusal paper_read_levels(struct paper_bytes bytes, struct paper_levels *levels)
{
    if (bytes.length < 2)
        return paper_refuse(1, 0);
    unsigned v = paper_number(bytes, 0, 2);
    if (v < 1 || v > PAPER_LEVELS)
        return paper_refuse(2, 0);
    if (bytes.length != 2 + 4 * v)
        return paper_refuse(3, 0);
    unsigned idle = idle_entries(bytes, v, levels);
    if (idle == v)
        return paper_refuse(31, 0);
    levels->count = v - idle;
    for (unsigned entry = idle; entry < v; entry++) {
        levels->frequency[entry - idle] = paper_number(bytes, 2 + 2 * entry, 2);
        levels->voltage[entry - idle] = paper_number(bytes, 2 + 2 * v + 2 * entry, 2);
        uint32_t fault = level_fault(levels, entry - idle);
        if (fault)
            return paper_refuse(fault, entry);
    }
    return paper_refuse(0, 0);
}

static struct paper_refusal job_entry(const struct paper_jobs *jobs, unsigned i)
{
    if (jobs->deadline[i] > PAPER_TIME || jobs->release[i] >= jobs->deadline[i])
        return paper_refuse(9, i);
    if (jobs->cycles[i] < 1 || jobs->cycles[i] > PAPER_CYCLES)
        return paper_refuse(10, i);
    return paper_refuse(0, 0);
}

struct paper_refusal paper_read_jobs(struct paper_bytes bytes, struct paper_jobs *jobs)
{
    if (bytes.length < 2)
        return paper_refuse(6, 0);
    unsigned n = paper_number(bytes, 0, 2);
    if (n > PAPER_JOBS)
        return paper_refuse(7, 0);
    if (bytes.length != 2 + 12 * n)
        return paper_refuse(8, 0);
    jobs->count = n;
    for (unsigned i = 0; i < n; i++) {
        jobs->release[i] = paper_number(bytes, 2 + 8 * i, 4);
        jobs->deadline[i] = paper_number(bytes, 2 + 8 * i + 4, 4);
        jobs->cycles[i] = paper_number(bytes, 2 + 8 * n + 4 * i, 4);
        struct paper_refusal refusal = job_entry(jobs, i);
        if (refusal.number)
            return refusal;
    }
    return paper_refuse(0, 0);
}
