#include "call.h"

#include <inttypes.h>
#include <stdio.h>

struct tally *tally;
void (*on_disagreement)(void);

static const char *const names[TABLES] = { "levels", "jobs", "marks", "plan", "prices", "tasks" };
static struct guarded room[TABLES];

/* The tables of this call and its parameters, where it takes any, to be printed where it disagrees. */
static struct paper_bytes lent[TABLES];
static struct paper_parameters lent_parameters;
static bool with_parameters, agrees;

void call_start(void)
{
    for (unsigned i = 0; i < TABLES; i++)
        room[i] = guarded_table(TABLE_ROOM);
}

void call_begin(void)
{
    for (unsigned i = 0; i < TABLES; i++)
        lent[i] = (struct paper_bytes) { NULL, 0 };
    with_parameters = false;
    agrees = true;
}

struct paper_bytes call_lend(struct numbers *numbers, unsigned which, const struct table *table)
{
    struct part part = guarded_part(&room[which], table->length, one_in(numbers, 2));
    guarded_fill(&room[which], part, table->at);
    lent[which] = (struct paper_bytes) { room[which].lent + part.start, part.length };
    return lent[which];
}

struct paper_parameters call_lend_parameters(struct paper_parameters parameters)
{
    lent_parameters = parameters;
    with_parameters = true;
    return parameters;
}

struct paper_tables call_lend_site(struct numbers *numbers, const struct site_tables *site)
{
    struct paper_tables tables = { .parameters = call_lend_parameters(site->parameters) };
    tables.levels = call_lend(numbers, LEVELS, site->levels);
    tables.jobs = call_lend(numbers, JOBS, site->jobs);
    tables.marks = call_lend(numbers, MARKS, site->marks);
    return tables;
}

struct ramyearly_spare_answer call_spare(struct paper_tables site, uint32_t start, uint32_t end)
{
    return ramyearly_spare(site.levels.at, site.levels.length, site.jobs.at, site.jobs.length, site.parameters.highest,
        site.parameters.free_ticks, site.parameters.margin, start, end);
}

struct ramyearly_check_answer call_check(struct paper_tables site, struct paper_bytes plan, struct paper_bytes prices)
{
    return ramyearly_check(SITE_ARGUMENTS(site), plan.at, plan.length, prices.at, prices.length);
}

bool call_agrees(void)
{
    return agrees;
}

void same(const char *what, int64_t found, int64_t wanted)
{
    if (found != wanted) {
        printf("  %s: %" PRId64 ", but %" PRId64 " is right\n", what, found, wanted);
        agrees = false;
    }
}

void same_bytes(const char *what, const struct guarded *memory, struct part part, struct paper_bytes wanted)
{
    const uint8_t *found = memory->lent + part.start;
    for (size_t i = 0; i < wanted.length && i < part.length; i++)
        if (found[i] != wanted.at[i]) {
            printf("  byte %zu of the %s\n", i, what);
            same("a byte", found[i], wanted.at[i]);
        }
}

static void print_table(unsigned which)
{
    if (!lent[which].at)
        return;
    printf("  %s (%zu bytes):", names[which], lent[which].length);
    for (size_t i = 0; i < lent[which].length; i++)
        printf(" %02x", lent[which].at[i]);
    printf("\n");
}

static void print_parameters(void)
{
    if (with_parameters)
        printf("  highest level %" PRIu32 ", free ticks %" PRIu32 ", margin %" PRIu32 "\n", lent_parameters.highest, lent_parameters.free_ticks,
            lent_parameters.margin);
}

void call_count(uint32_t number)
{
    tally->calls++;
    if (number <= REFUSALS)
        tally->by_number[number]++;
}

/* Where no levels are lent the highest one alters nothing. */
static bool has_fewer_levels(struct paper_tables site)
{
    struct paper_levels given;
    return site.levels.at && paper_read_levels(site.levels, &given).number == 0 && site.parameters.highest < given.count;
}

static void count_altered(struct paper_tables site, uint64_t *answered)
{
    bool fewer = has_fewer_levels(site), free_ticks = site.parameters.free_ticks > 0, margin = site.parameters.margin > 0;
    tally->altered.fewer_levels += fewer;
    tally->altered.free_ticks += free_ticks;
    tally->altered.margins += margin;
    *answered += fewer || free_ticks || margin;
}

void call_count_altered(struct paper_tables site, uint32_t number, uint32_t place, uint64_t *answered)
{
    struct paper_jobs jobs;
    if (number == 0)
        count_altered(site, answered);
    if (number != 36 || paper_read_jobs(site.jobs, &jobs).number != 0)
        return;
    bool emptied = paper_emptied(jobs.release[place], jobs.deadline[place], site.parameters.free_ticks);
    tally->altered.emptied += emptied;
    tally->altered.too_many_cycles += !emptied;
}

void call_report(const char *operation)
{
    if (agrees)
        return;
    tally->disagreements++;
    printf("  in %s of these tables\n", operation);
    for (unsigned i = 0; i < TABLES; i++)
        print_table(i);
    print_parameters();
    fflush(stdout);
    on_disagreement();
}

void call_end(const char *operation, uint32_t number)
{
    call_count(number);
    call_report(operation);
}
