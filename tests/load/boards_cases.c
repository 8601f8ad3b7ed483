#include "boards_cases.h"

#include "boards.h"
#include "buffers.h"
#include "call.h"
#include "change.h"
#include "damage.h"
#include "exact.h"
#include "loads.h"
#include "other.h"
#include "parameters.h"
#include "sites.h"
#include "spans.h"

enum { FIRST, SECOND, BOARDS };

/* The tables of both boards; the plan that planning writes, and the one that is checked on both. */
static struct table levels[BOARDS], jobs, marks, plan, prices, ordered[BOARDS];
static struct site_tables boards[BOARDS]
    = { { .levels = &levels[FIRST], .jobs = &jobs, .marks = &marks }, { .levels = &levels[SECOND], .jobs = &jobs, .marks = &marks } };
static struct plan planned_steps, steps;
static struct prices planned_list, list;

/* A site with its own board and with another, and what planning writes for the other. */
struct pair {
    struct paper_site site[BOARDS];
    struct planned second;
};

/* A quarter are so light that mostly each plan is a least one. */
static struct paper_site light_or_any_site(struct numbers *numbers)
{
    return one_in(numbers, 4) ? light_site(numbers, small_shape(numbers)) : small_or_large_site(numbers);
}

/* All operations: the answers and the bytes of both boards are the same but for the energy. Setting and spare are the paper's. */
static void ask_both(struct numbers *numbers, const struct paper_site *site)
{
    uint32_t length = any_length(numbers);
    uint64_t load = any_load(numbers, &site->given.levels, length);
    struct window window = any_span(numbers, site);
    struct buffer_lengths buffers = one_in(numbers, 4) ? any_buffers(numbers, site) : enough(site);
    compare_boards(numbers, &boards[FIRST], &boards[SECOND], (struct questions) { length, load, window, buffers });
    for (unsigned b = 0; b < BOARDS; b++) {
        compare_setting(numbers, &levels[b], boards[b].parameters.highest, length, load);
        compare_spare(numbers, &boards[b], window.start, window.end);
    }
}

/* Both are planned, each held against the paper. */
static void plan_both(struct numbers *numbers, struct pair *pair)
{
    bool first = compare_plan(numbers, &boards[FIRST], enough(&pair->site[FIRST]), &plan, &prices);
    pair->second = plan_exactly(numbers, &pair->site[SECOND]);
    same("a plan came out on the second board", pair->second.came_out, first);
    call_report("two boards");
    if (first) {
        plan_of_table(&planned_steps, &plan);
        prices_of_table(&planned_list, &prices);
    }
}

/* The plan that planning wrote, or one that nobody made least, with or without a change. */
static void make_plan(struct numbers *numbers, const struct pair *pair)
{
    const struct paper_site *site = &pair->site[FIRST];
    if (pair->second.came_out && !one_in(numbers, 4)) {
        plan_copy(&steps, &planned_steps);
        list = planned_list;
    } else {
        if (one_in(numbers, 2))
            full_plan(numbers, site, &steps);
        else
            any_plan(numbers, site, &steps);
        band_prices(site, &steps, &list);
    }
    change_either(numbers, site, &steps, &list);
    plan_table(&plan, &steps);
    prices_table(&prices, &list);
    if (one_in(numbers, 16))
        damage_bytes(numbers, &plan);
    if (one_in(numbers, 16))
        damage_bytes(numbers, &prices);
}

/* Refused with the same number and place, or accepted with the figure of each board. An accepted plan has the least exact energy on the
 * second board too: that of the plan which planning writes for it. */
static void check_both(struct numbers *numbers, const struct pair *pair)
{
    struct ramyearly_check_answer first = compare_check(numbers, &boards[FIRST], &plan, &prices);
    struct ramyearly_check_answer second = compare_check(numbers, &boards[SECOND], &plan, &prices);
    same("number on the second board", second.number, first.number);
    same("place on the second board", second.place, first.place);
    if (first.number == 0) {
        struct paper_loads loads = paper_loads(bytes_of(&plan));
        same("the second board has a plan too", pair->second.came_out, 1);
        same("exact energy on the second board times all gaps", (int64_t)paper_exact(&pair->site[SECOND], &loads), (int64_t)pair->second.exact);
    }
    call_report("two boards");
}

static void order_both(struct numbers *numbers)
{
    size_t length = any_buffer(numbers, plan.length);
    bool came_out[BOARDS];
    for (unsigned b = 0; b < BOARDS; b++)
        came_out[b] = compare_order(numbers, &boards[b], &plan, &prices, length, &ordered[b]);
    same("a plan came out in order on the second board", came_out[SECOND], came_out[FIRST]);
    if (came_out[FIRST] && came_out[SECOND])
        same("it is the same on the second board", table_equals(&ordered[SECOND], &ordered[FIRST]), 1);
    call_report("two boards");
}

/* The same site with another board, which has levels above its own highest one: the free ticks and the margin are the same. */
static struct paper_site with_other_board(struct numbers *numbers, const struct paper_site *site)
{
    struct paper_levels board = other_board(numbers, &site->levels);
    struct paper_given given = { with_higher_levels(numbers, board), site->given.jobs, site->given.parameters };
    given.parameters.highest = board.count;
    return site_given(given, site->marks);
}

void alike_boards(struct numbers *numbers)
{
    struct paper_site site = light_or_any_site(numbers);
    struct pair pair = { .site = { site, with_other_board(numbers, &site) } };
    tables_of_site(&site, &levels[FIRST], &jobs, &marks);
    levels_table(&levels[SECOND], &pair.site[SECOND].given.levels);
    for (unsigned b = 0; b < BOARDS; b++)
        boards[b].parameters = pair.site[b].given.parameters;
    ask_both(numbers, &site);
    plan_both(numbers, &pair);
    for (unsigned i = 0; i < 3; i++) {
        make_plan(numbers, &pair);
        check_both(numbers, &pair);
        if (one_in(numbers, 4))
            order_both(numbers);
    }
}
