#include <stdio.h>

#include "call.h"

static struct guarded ordered_buffer, again_buffer;

void call_start_order(void)
{
    ordered_buffer = guarded_buffer(TABLE_ROOM);
    again_buffer = guarded_buffer(TABLE_ROOM);
}

/* The tables of a call. */
struct lent {
    struct paper_tables site;
    struct paper_bytes plan, prices;
};

static struct lent lend(struct numbers *numbers, const struct site_tables *site, const struct table *plan, const struct table *prices)
{
    struct lent lent;
    lent.site = call_lend_site(numbers, site);
    lent.plan = call_lend(numbers, PLAN, plan);
    lent.prices = call_lend(numbers, PRICES, prices);
    return lent;
}

static struct ramyearly_order_answer order(const struct lent *lent, const struct guarded *memory, struct part part)
{
    return ramyearly_order(SITE_ARGUMENTS(lent->site), lent->plan.at, lent->plan.length, lent->prices.at, lent->prices.length,
        memory->lent + part.start, part.length);
}

/* What came out, lent as the plan: it is accepted with the figure of the plan that was given. */
static void check_ordered(const struct lent *given, const struct lent *written)
{
    struct ramyearly_check_answer found = call_check(written->site, written->plan, written->prices);
    struct ramyearly_check_answer wanted = paper_check(given->site, given->plan, given->prices);
    call_count(found.number);
    same("the check of the ordered plan: number", found.number, 0);
    same("the check of the ordered plan: place", found.place, 0);
    same("the check of the ordered plan: energy", (int64_t)found.energy, (int64_t)wanted.energy);
    call_first_half(written->site, written->plan, found);
}

/* Ordering it again changes nothing. */
static void order_again(const struct lent *written, uint8_t seed)
{
    struct part part = guarded_part(&again_buffer, written->plan.length, seed & 2);
    guarded_set_pattern(&again_buffer, part, seed);
    struct ramyearly_order_answer found = order(written, &again_buffer, part);
    call_count(found.number);
    same("ordered again: number", found.number, 0);
    same("ordered again: place", found.place, 0);
    same("ordered again: length", found.length, (int64_t)written->plan.length);
    same_bytes("plan that was ordered again", &again_buffer, part, written->plan);
    same("ordered again: the bytes beside the buffer stay", guarded_has_pattern_from(&again_buffer, part, part.length, seed), 1);
}

bool compare_order(struct numbers *numbers, const struct site_tables *site, const struct table *plan, const struct table *prices,
    size_t ordered_length, struct table *ordered)
{
    static uint8_t bytes[PAPER_PLAN];
    call_begin();
    struct lent given = lend(numbers, site, plan, prices), written = given;
    uint8_t seed = any_byte(numbers);
    struct part part = guarded_part(&ordered_buffer, ordered_length, seed & 1);
    guarded_set_pattern(&ordered_buffer, part, seed);
    struct ramyearly_order_answer found = order(&given, &ordered_buffer, part);
    struct ramyearly_order_answer wanted = paper_order(given.site, given.plan, given.prices, ordered_length, bytes);
    same("number", found.number, wanted.number);
    same("place", found.place, wanted.place);
    same("length", found.length, wanted.length);
    same_bytes("ordered plan", &ordered_buffer, part, (struct paper_bytes) { bytes, wanted.length });
    same("the buffer's rest stays", guarded_has_pattern_from(&ordered_buffer, part, wanted.length, seed), 1);
    bool came_out = found.number == 0 && call_agrees();
    if (came_out) {
        written.plan = (struct paper_bytes) { ordered_buffer.lent + part.start, found.length };
        check_ordered(&given, &written);
        order_again(&written, seed);
        table_keep(ordered, written.plan);
        tally->ordered++;
    }
    call_count_altered(given.site, wanted.number, wanted.place, &tally->altered.ordered);
    if (!call_agrees())
        printf("  a buffer of %zu bytes\n", ordered_length);
    came_out = came_out && call_agrees();
    call_end("ordering", found.number);
    return came_out;
}
