#include <string.h>

#include "buffers.h"
#include "call.h"

/* What the archive answers and writes for one site. No answer has padding, so its bytes are its fields. */
struct answers {
    struct ramyearly_setting_answer setting;
    struct ramyearly_spare_answer spare;
    struct ramyearly_nearest_answer nearest;
    struct ramyearly_plan_answer planning;
    struct ramyearly_check_answer check;
    struct ramyearly_fits_answer fits;
    struct ramyearly_order_answer order;
    struct ramyearly_touching_answer touching;
    uint8_t plan[PAPER_PLAN + MOST_MORE], prices[2 + 5 * PAPER_INTERVALS + MOST_MORE], ordered[PAPER_PLAN];
    uint32_t shares[PAPER_INTERVALS * PAPER_JOBS + MOST_MORE];
    uint32_t open[PAPER_JOBS], inside[PAPER_JOBS], steps[PAPER_INTERVALS * PAPER_JOBS], most[2 * PAPER_JOBS];
};

static struct answers one, other;

#define COUNT(list) (sizeof(list) / sizeof *(list))

/* The check, ordering and touching are lent what planning wrote; where no plan came out, that is a few bytes of a pattern. */
static void ask_of_plan(struct paper_tables t, struct window span, struct answers *a)
{
    struct paper_bytes p = { a->plan, 4 + 6 * (size_t)a->planning.steps }, r = { a->prices, 2 + 5 * (size_t)a->planning.intervals };
    a->check = call_check(t, p, r);
    call_count(a->check.number);
    a->fits = call_first_half(t, p, a->check);
    a->order = ramyearly_order(SITE_ARGUMENTS(t), p.at, p.length, r.at, r.length, a->ordered, sizeof a->ordered);
    call_count(a->order.number);
    a->touching = ramyearly_touching(t.jobs.at, t.jobs.length, t.marks.at, t.marks.length, t.parameters.free_ticks, t.parameters.margin,
        p.at, p.length, span.start, span.end, a->open, COUNT(a->open), a->inside, COUNT(a->inside), a->steps, COUNT(a->steps));
    call_count(a->touching.number);
}

static void ask(struct paper_tables t, struct questions questions, struct answers *a)
{
    memset(a, 0xa5, sizeof *a);
    a->setting = ramyearly_setting(t.levels.at, t.levels.length, t.parameters.highest, questions.length, questions.load);
    call_count(a->setting.number);
    a->spare = call_spare(t, questions.window.start, questions.window.end);
    call_count(a->spare.number);
    a->nearest = call_nearest(t, a->most, COUNT(a->most));
    call_count(a->nearest.number);
    a->planning = ramyearly_plan(SITE_ARGUMENTS(t), a->plan, questions.buffers.plan, a->prices, questions.buffers.prices, a->shares,
        questions.buffers.shares);
    call_count(a->planning.number);
    ask_of_plan(t, questions.window, a);
}

static void ask_both(struct numbers *numbers, const struct site_tables *one_site, const struct site_tables *other_site, struct questions questions)
{
    call_begin();
    ask(call_lend_site(numbers, one_site), questions, &one);
    ask(call_lend_site(numbers, other_site), questions, &other);
}

static void leave_energy_out(struct answers *a)
{
    a->planning.energy = 0;
    a->check.energy = 0;
    a->fits.energy = 0;
}

#define ALIKE(field) same(#field " for both sites is the same", memcmp(&one.field, &other.field, sizeof one.field) == 0, 1)

static void are_alike(void)
{
    ALIKE(setting);
    ALIKE(spare);
    ALIKE(nearest);
    ALIKE(planning);
    ALIKE(check);
    ALIKE(fits);
    ALIKE(order);
    ALIKE(touching);
    ALIKE(plan);
    ALIKE(prices);
    ALIKE(shares);
    ALIKE(ordered);
    ALIKE(open);
    ALIKE(inside);
    ALIKE(steps);
    ALIKE(most);
}

void compare_alike(struct numbers *numbers, const struct site_tables *one_site, const struct site_tables *other_site, struct questions questions)
{
    ask_both(numbers, one_site, other_site, questions);
    are_alike();
    call_report("two sites");
}

void compare_boards(struct numbers *numbers, const struct site_tables *one_site, const struct site_tables *other_site, struct questions questions)
{
    ask_both(numbers, one_site, other_site, questions);
    leave_energy_out(&one);
    leave_energy_out(&other);
    are_alike();
    call_report("two boards");
}
