#include <stdio.h>

#include "call.h"
#include "lists.h"

/* Of sites with more jobs than this the window test is asked for one of them only: it goes through all windows for each. */
enum { FEW_JOBS = 8 };

static struct lent_list lent = { .name = "most cycles" };

void call_start_nearest(void)
{
    list_start(&lent);
}

struct ramyearly_nearest_answer call_nearest(struct paper_tables site, uint32_t *list, size_t list_length)
{
    return ramyearly_nearest(site.levels.at, site.levels.length, site.jobs.at, site.jobs.length, site.parameters.highest,
        site.parameters.free_ticks, site.parameters.margin, list, list_length);
}

static void is_most(const struct paper_site *site, const uint32_t *entry)
{
    same("the window test fits with the cycles added, and not with one more", paper_is_most(site, entry[0], entry[1]), 1);
}

/* The numbers are held against the window test: those of all jobs, or of any one. */
static void judge_list(struct numbers *numbers, const struct paper_site *site, const uint32_t *list)
{
    unsigned count = site->jobs.count;
    if (count > FEW_JOBS) {
        is_most(site, &list[2 * below(numbers, count)]);
        return;
    }
    for (unsigned i = 0; i < count; i++)
        is_most(site, &list[2 * i]);
}

static void count_list(const struct paper_site *site, const uint32_t *list)
{
    bool equal = false, other_window = false;
    unsigned count = site->jobs.count;
    for (unsigned i = 0; i < count; i++) {
        unsigned job = list[2 * i];
        equal = equal || (i > 0 && list[2 * i + 1] == list[2 * i - 1]);
        other_window = other_window || list[2 * i + 1] < paper_spare_of(site, site->jobs.release[job], site->jobs.deadline[job]);
    }
    tally->nearest.equal += equal;
    tally->nearest.other_window += other_window;
    tally->nearest.some_full += count > 0 && list[1] == 0 && list[2 * count - 1] > 0;
    tally->nearest.most_jobs += count == PAPER_JOBS;
}

bool compare_nearest(struct numbers *numbers, const struct site_tables *site, size_t list_length, uint32_t list[2 * PAPER_JOBS])
{
    struct paper_site read;
    call_begin();
    struct paper_tables t = { .parameters = call_lend_parameters(site->parameters) };
    t.levels = call_lend(numbers, LEVELS, site->levels);
    t.jobs = call_lend(numbers, JOBS, site->jobs);
    uint8_t seed = any_byte(numbers);
    list_lend(&lent, list_length, seed & 1, seed);
    struct ramyearly_nearest_answer found = call_nearest(t, list_numbers(&lent), list_length), wanted = paper_nearest(t, list_length, list);
    same("number", found.number, wanted.number);
    same("place", found.place, wanted.place);
    same("start", found.start, wanted.start);
    same("end", found.end, wanted.end);
    same("spare", found.spare, wanted.spare);
    same("length", (int64_t)found.length, (int64_t)wanted.length);
    list_is(&lent, list, (size_t)wanted.length);
    if (wanted.number == 0 && paper_read_unmarked(t, &read).number == 0) {
        judge_list(numbers, &read, list);
        count_list(&read, list);
    }
    tally->nearest.lists += found.number == 0;
    tally->nearest.overfull += wanted.number == 11;
    tally->nearest.too_short += wanted.number == 14;
    call_count_altered(t, wanted.number, wanted.place, &tally->altered.nearest);
    if (!call_agrees())
        printf("  a list of %zu numbers\n", list_length);
    bool came_out = found.number == 0 && call_agrees();
    call_end("the job nearest to trouble", found.number);
    return came_out;
}
