/* The site parameters, which alter the tables after reading: refusals 35 and 36. */
#include "paper.h"

/* The first running levels stay, as many as are allowed. The idle entry is none of them. */
struct paper_refusal paper_alter_levels(uint32_t highest, struct paper_levels *levels)
{
    if (highest == 0 || highest > levels->count)
        return paper_refuse(35, 0);
    levels->count = highest;
    return paper_refuse(0, 0);
}

/* A part of a cycle counts as a whole one. */
uint64_t paper_with_margin(uint64_t cycles, uint32_t margin)
{
    uint64_t hundredths = cycles * margin, more = hundredths / 100;
    return cycles + (hundredths % 100 == 0 ? more : more + 1);
}

/* No tick from the release on is left before the ticks that are kept free. */
bool paper_emptied(uint32_t release, uint32_t deadline, uint32_t free_ticks)
{
    return (int64_t)deadline - free_ticks <= release;
}

/* 35, then 36 by job. */
struct paper_refusal paper_alter_jobs(uint32_t free_ticks, uint32_t margin, struct paper_jobs *jobs)
{
    if (free_ticks > PAPER_TIME || margin > PAPER_MARGIN)
        return paper_refuse(35, 0);
    for (unsigned j = 0; j < jobs->count; j++) {
        uint64_t cycles = paper_with_margin(jobs->cycles[j], margin);
        if (paper_emptied(jobs->release[j], jobs->deadline[j], free_ticks) || cycles > PAPER_CYCLES)
            return paper_refuse(36, j);
        jobs->deadline[j] -= free_ticks;
        jobs->cycles[j] = (uint32_t)cycles;
    }
    return paper_refuse(0, 0);
}

/* The tables of the site as they were given are altered: 35 of any of the three, then 36. */
struct paper_refusal paper_alter(struct paper_site *site)
{
    const struct paper_given *given = &site->given;
    site->levels = given->levels;
    site->jobs = given->jobs;
    struct paper_refusal refusal = paper_alter_levels(given->parameters.highest, &site->levels);
    if (!refusal.number)
        refusal = paper_alter_jobs(given->parameters.free_ticks, given->parameters.margin, &site->jobs);
    return refusal;
}
