#include <inttypes.h>
#include <stdio.h>

#include "call.h"
#include "lists.h"

static struct lent_list open = { .name = "open jobs" }, inside = { .name = "inside jobs" }, steps = { .name = "steps" };

void call_start_touching(void)
{
    list_start(&open);
    list_start(&inside);
    list_start(&steps);
}

void compare_touching(struct numbers *numbers, const struct site_tables *site, const struct table *plan, struct window span,
    struct list_lengths lengths)
{
    static struct paper_touched touched;
    call_begin();
    struct paper_tables t = { .parameters = call_lend_parameters(site->parameters) };
    t.jobs = call_lend(numbers, JOBS, site->jobs);
    t.marks = call_lend(numbers, MARKS, site->marks);
    struct paper_bytes p = call_lend(numbers, PLAN, plan);
    uint8_t seed = any_byte(numbers);
    list_lend(&open, lengths.open, seed & 1, seed);
    list_lend(&inside, lengths.inside, seed & 2, seed);
    list_lend(&steps, lengths.steps, seed & 4, seed);
    struct ramyearly_touching_answer found = ramyearly_touching(t.jobs.at, t.jobs.length, t.marks.at, t.marks.length, t.parameters.free_ticks,
        t.parameters.margin, p.at, p.length, span.start, span.end, list_numbers(&open), lengths.open, list_numbers(&inside), lengths.inside,
        list_numbers(&steps), lengths.steps);
    struct ramyearly_touching_answer wanted = paper_touching(t, p, span.start, span.end, lengths.open, lengths.inside, lengths.steps, &touched);
    same("number", found.number, wanted.number);
    same("place", found.place, wanted.place);
    same("open", found.open, wanted.open);
    same("inside", found.inside, wanted.inside);
    same("steps", found.steps, wanted.steps);
    same("deadline", found.deadline, wanted.deadline);
    list_is(&open, touched.open, wanted.open);
    list_is(&inside, touched.inside, wanted.inside);
    list_is(&steps, touched.steps, wanted.steps);
    if (!call_agrees())
        printf("  from %" PRIu32 " to %" PRIu32 ", lists of %zu, %zu and %zu numbers\n", span.start, span.end, lengths.open, lengths.inside,
            lengths.steps);
    tally->touched += found.number == 0;
    call_count_altered(t, wanted.number, wanted.place, &tally->altered.touched);
    if (wanted.number == 14)
        tally->too_short[touched.too_short]++;
    call_end("touching", found.number);
}
