/* The cases of handover marks. */
#include <string.h>

#include "support.h"

static const struct room NONE = { 0, 0, 0 }, LONG = { 100, 100, 100 };

/* The jobs that document 01 lists, 10 ticks later: 10 14 6 and 12 13 4. Bounds 10, 12, 13, 14. Under T the second job's cycles fill
 * its tick to the top, and those of the first fill band 1 in the three ticks that are left, which no other plan does for as
 * little: 8 x 100 + 2 x 700. */
static struct bytes two_jobs(void)
{
    return table(4, 2, (const uint32_t[]) { 10, 14, 12, 13, 6, 4 }, 6);
}

static const uint64_t ENERGY = 2200;

static struct bytes whole_plan(void)
{
    return plan_of(3, 3, (const uint32_t[][3]) { { 0, 0, 4 }, { 1, 1, 4 }, { 2, 0, 2 } });
}

static struct bytes whole_prices(void)
{
    return prices_of(3, (const uint32_t[]) { 12, 13, 14 }, (const uint8_t[]) { 1, 2, 1 });
}

/* With a mark at 11, which cuts the first interval in two of a tick each. */
static struct bytes cut_plan(void)
{
    return plan_of(4, 4, (const uint32_t[][3]) { { 0, 0, 2 }, { 1, 0, 2 }, { 2, 1, 4 }, { 3, 0, 2 } });
}

static struct bytes cut_prices(void)
{
    return prices_of(4, (const uint32_t[]) { 11, 12, 13, 14 }, (const uint8_t[]) { 1, 1, 2, 1 });
}

/* The first job is open in 4 intervals and the second in one, and 2 jobs + 4 intervals - 1 is 5 too: 4 + 6 x 5 bytes, 2 + 5 x 4 bytes and
 * 2 x 4 numbers. */
static void one_cut(void)
{
    struct bytes t = level_pair(), jobs = two_jobs(), mark = marks_at("11");
    struct ramyearly_plan_answer planned = { .intervals = 4, .steps = 4, .energy = ENERGY };
    written_is("the plan of an interval that is cut", plan_marked_is("a mark inside", t, jobs, mark, 34, 22, 8, planned), cut_plan(), cut_prices(),
        (const uint32_t[]) { 2, 0, 2, 0, 0, 4, 2, 0 }, 8);
    plan_marked_is("a mark and a short plan buffer", t, jobs, mark, 33, 22, 8, (struct ramyearly_plan_answer) { .number = 12, .place = 34 });
    plan_marked_is("a mark and a short price buffer", t, jobs, mark, 34, 21, 8, (struct ramyearly_plan_answer) { .number = 13, .place = 22 });
    plan_marked_is("a mark and few shares", t, jobs, mark, 34, 22, 7, (struct ramyearly_plan_answer) { .number = 14, .place = 8 });
    check_marked_is("a plan with its mark", t, jobs, mark, cut_plan(), cut_prices(), (struct ramyearly_check_answer) { .energy = ENERGY });
    check_is("a plan without its mark", t, jobs, cut_plan(), cut_prices(), (struct ramyearly_check_answer) { .number = 16 });
    check_marked_is("a mark that the plan does not have", t, jobs, mark, whole_plan(), whole_prices(),
        (struct ramyearly_check_answer) { .number = 16 });
    check_marked_is("prices without the mark", t, jobs, mark, cut_plan(), whole_prices(), (struct ramyearly_check_answer) { .number = 21 });
}

static void one_cut_in_order(void)
{
    struct bytes t = level_pair(), jobs = two_jobs(), mark = marks_at("11");
    struct bytes mixed = plan_of(4, 4, (const uint32_t[][3]) { { 3, 0, 2 }, { 1, 0, 2 }, { 2, 1, 4 }, { 0, 0, 2 } });
    order_marked_is("an order with a mark", t, jobs, mark, mixed, cut_prices(), 28, (struct ramyearly_order_answer) { .length = 28 }, cut_plan());
    order_marked_refused("a mark and a short buffer", t, jobs, mark, mixed, cut_prices(), 27, 12, 28);
    order_refused("an order without its mark", t, jobs, mixed, cut_prices(), 28, 16, 0);
    order_marked_refused("an order with a mark too many", t, jobs, mark, whole_plan(), whole_prices(), 28, 16, 0);
}

static void span_is(const char *name, uint32_t start, uint32_t end, const char *open, const char *inside, const char *steps, uint32_t deadline)
{
    struct touched wanted = { list_of(open), list_of(inside), list_of(steps), deadline };
    touching_marked_is(name, two_jobs(), marks_at("11"), cut_plan(), start, end, LONG, &wanted);
    touching_refused(name, two_jobs(), cut_plan(), start, end, LONG, 16, 0);
}

/* The cells are 0 from 10 to 11, 64 up to 12, 129 up to 13 and 192 up to 14. The mark is no deadline. */
static void one_cut_touched(void)
{
    span_is("up to the mark", 0, 11, "0", "", "0", 13);
    span_is("from the mark on", 11, 12, "0", "", "64", 13);
    span_is("from the mark to the end", 11, 100, "0 1", "1", "64 129 192", 13);
    span_is("both sides of the mark", 10, 12, "0", "", "0 64", 13);
    touching_marked_refused("a mark and a short list", two_jobs(), marks_at("11"), cut_plan(), 10, 14, (struct room) { 2, 2, 3 }, 14, 4);
    touching_marked_refused("a mark that the plan does not have", two_jobs(), marks_at("11"), whole_plan(), 10, 14, LONG, 16, 0);
}

/* The answers and the bytes are those without marks. */
static void without_effect(const char *ticks)
{
    struct bytes t = level_pair(), jobs = two_jobs(), marks = marks_at(ticks);
    struct ramyearly_plan_answer planned = { .intervals = 3, .steps = 3, .energy = ENERGY };
    struct touched touched = { list_of("0"), list_of(""), list_of("0"), 13 };
    written_is(ticks, plan_marked_is(ticks, t, jobs, marks, 28, 17, 6, planned), whole_plan(), whole_prices(),
        (const uint32_t[]) { 4, 0, 0, 4, 2, 0 }, 6);
    check_marked_is(ticks, t, jobs, marks, whole_plan(), whole_prices(), (struct ramyearly_check_answer) { .energy = ENERGY });
    check_marked_is(ticks, t, jobs, marks, cut_plan(), cut_prices(), (struct ramyearly_check_answer) { .number = 16 });
    order_marked_is(ticks, t, jobs, marks, whole_plan(), whole_prices(), 22, (struct ramyearly_order_answer) { .length = 22 }, whole_plan());
    touching_marked_is(ticks, jobs, marks, whole_plan(), 10, 11, LONG, &touched);
}

/* At the earliest release and before it, on bounds, at the latest deadline and after it. The last but one are 11 in their lower bytes. */
static void no_effect(void)
{
    without_effect("");
    without_effect("0");
    without_effect("9");
    without_effect("10");
    without_effect("12");
    without_effect("13");
    without_effect("14");
    without_effect("15");
    without_effect("1000000");
    without_effect("1000001");
    without_effect("4294967295");
    without_effect("0 9 10 12 13 14 15 16");
    without_effect("267 65547 16777227");
    without_effect("4294967288 4294967289 4294967290 4294967291 4294967292 4294967293 4294967294 4294967295");
}

/* Those with an effect among those without: bounds 10, 11, 12, 13, 14. */
static void some_effect(void)
{
    struct bytes t = level_pair(), marks = marks_at("0 9 10 11 12 14 15 4294967295");
    struct ramyearly_plan_answer planned = { .intervals = 4, .steps = 4, .energy = ENERGY };
    written_is("the plan of one mark among eight", plan_marked_is("one mark among eight", t, two_jobs(), marks, 34, 22, 8, planned), cut_plan(),
        cut_prices(), (const uint32_t[]) { 2, 0, 2, 0, 0, 4, 2, 0 }, 8);
    check_marked_is("one mark among eight", t, two_jobs(), marks, cut_plan(), cut_prices(), (struct ramyearly_check_answer) { .energy = ENERGY });
}

static void no_jobs(void)
{
    struct bytes t = level_pair(), jobs = table(4, 0, NULL, 0), marks = marks_at("0 5 4294967295"), plan = plan_of(0, 0, NULL);
    struct bytes prices = prices_of(0, NULL, NULL);
    struct touched nothing = { .deadline = 0 };
    plan_marked_is("marks and no jobs", t, jobs, marks, 4, 2, 0, (struct ramyearly_plan_answer) { .number = 0 });
    check_marked_is("marks and no jobs", t, jobs, marks, plan, prices, (struct ramyearly_check_answer) { .number = 0 });
    order_marked_is("marks and no jobs", t, jobs, marks, plan, prices, 4, (struct ramyearly_order_answer) { .length = 4 }, plan);
    touching_marked_is("marks and no jobs", jobs, marks, plan, 0, 10, NONE, &nothing);
}

/* One job 0 8 16 with a mark: its cycles before it and after it. */
static struct bytes plan_around(uint32_t before, uint32_t after)
{
    return plan_of(2, 2, (const uint32_t[][3]) { { 0, 0, before }, { 1, 0, after } });
}

static struct bytes prices_around(uint32_t mark, uint8_t before, uint8_t after)
{
    return prices_of(2, (const uint32_t[]) { mark, 8 }, (const uint8_t[]) { before, after });
}

static void around_is(const char *name, const char *mark, struct bytes plan, struct bytes prices, struct ramyearly_check_answer wanted)
{
    check_marked_is(name, level_pair(), table(4, 1, (const uint32_t[]) { 0, 8, 16 }, 3), marks_at(mark), plan, prices, wanted);
}

/* Under T its cycles fill band 1 everywhere: 16 x 100. With another mark the same steps load other ticks: 6 cycles are past the top in
 * one tick, and 10 are in band 2 in 4 ticks. */
static void other_marks(void)
{
    around_is("the plan of mark 3", "3", plan_around(6, 10), prices_around(3, 1, 1), (struct ramyearly_check_answer) { .energy = 1600 });
    around_is("the plan of mark 4", "4", plan_around(8, 8), prices_around(4, 1, 1), (struct ramyearly_check_answer) { .energy = 1600 });
    around_is("its prices with another end", "4", plan_around(6, 10), prices_around(3, 1, 1), (struct ramyearly_check_answer) { .number = 22 });
    around_is("its loads in other ticks", "4", plan_around(6, 10), prices_around(4, 1, 1),
        (struct ramyearly_check_answer) { .number = 23, .place = 1 });
    around_is("a cheaper interval before the mark", "4", plan_around(6, 10), prices_around(4, 1, 2),
        (struct ramyearly_check_answer) { .number = 24, .place = 1 });
    around_is("past the top before the mark", "1", plan_around(6, 10), prices_around(1, 1, 1), (struct ramyearly_check_answer) { .number = 20 });
}

/* Where least plans differ only in where the cycles are, each has this figure, with a mark at 1 as without. */
static void figure_is(const char *name, struct bytes levels, uint32_t cycles, uint8_t price, uint64_t energy)
{
    struct bytes jobs = table(4, 1, (const uint32_t[]) { 0, 2, cycles }, 3), mark = marks_at("1");
    struct bytes prices = prices_of(2, (const uint32_t[]) { 1, 2 }, (const uint8_t[]) { price, price });
    plan_is(name, levels, jobs, 10, 7, 1, (struct ramyearly_plan_answer) { .intervals = 1, .steps = 1, .energy = energy });
    plan_marked_is(name, levels, jobs, mark, 16, 12, 2, (struct ramyearly_plan_answer) { .intervals = 2, .steps = 2, .energy = energy });
    for (uint32_t more = 0; more < 2; more++)
        check_marked_is(name, levels, jobs, mark, plan_around(cycles / 2 - more, cycles / 2 + more), prices,
            (struct ramyearly_check_answer) { .energy = energy });
}

static void figures(void)
{
    /* The first built-in table with 401 cycles a tick: 600 x 8,100 + 200 x 15,700, and in band 3 the 2 cycles of both intervals together
     * are rounded down, 2 x 2,449,300 / 133. */
    figure_is("rounded once", table(2, 5, (const uint32_t[]) { 300, 400, 533, 667, 800, 90, 100, 110, 120, 130 }, 10), 802, 3, 8036831);
    /* Idling draws 9,000, and 100 at 10 has price 1,000 / 100: 150 x 10 + 2 x 9,000. */
    figure_is("a mark and a draw", table(2, 3, (const uint32_t[]) { 0, 100, 200, 9, 10, 10 }, 6), 150, 1, 19500);
}

/* The window is named by a release and a deadline, never by a mark: of jobs 0 9 1 and 2 5 17, the second has 3 x 4 of its cycles from 2
 * to 5, and from the mark at 1 it has 4 x 4, but no job is released there. */
static void overfull(void)
{
    struct bytes t = level_pair(), later = table(4, 2, (const uint32_t[]) { 0, 9, 2, 5, 1, 17 }, 6);
    plan_marked_is("a mark and a cycle too many", t, table(4, 1, (const uint32_t[]) { 0, 4, 17 }, 3), marks_at("1 3"), 64, 32, 16,
        (struct ramyearly_plan_answer) { .number = 11, .start = 0, .end = 4, .spare = -1 });
    plan_marked_is("marks and a later window overfull", t, later, marks_at("1 3 4 7"), 0, 0, 0,
        (struct ramyearly_plan_answer) { .number = 11, .start = 2, .end = 5, .spare = -5 });
}

/* 64 jobs of 64 cycles in 32 ticks, one tick apart and the last first: job j from 33 x (63 - j) on. A mark cuts every ninth window in
 * the middle, from the first to the last. Under T each job fills band 1 in its window, so there is one plan, of 72 steps and as many
 * intervals as there can be: 64 x 64 x 100. */
enum { STEPS = 72, INTERVALS = 135 };

struct most {
    unsigned marks, intervals, steps;
    uint32_t ticks[8], ends[INTERVALS], by_cell[STEPS][3], shares[64 * INTERVALS];
    struct touched all;
};

static const uint64_t MOST_ENERGY = 409600;

static struct bytes most_jobs(void)
{
    uint32_t numbers[3 * 64];
    for (uint32_t j = 0; j < 64; j++) {
        numbers[2 * j] = 33 * (63 - j);
        numbers[2 * j + 1] = 33 * (63 - j) + 32;
        numbers[128 + j] = 64;
    }
    return table(4, 64, numbers, 3 * 64);
}

static void add_interval(struct most *most, uint32_t end)
{
    most->ends[most->intervals++] = end;
}

static void add_step(struct most *most, uint32_t job, uint32_t cycles, uint32_t end)
{
    uint32_t *step = most->by_cell[most->steps], cell = most->intervals * 64 + job;
    step[0] = most->intervals;
    step[1] = job;
    step[2] = most->shares[cell] = cycles;
    most->all.steps.at[most->steps++] = cell;
    add_interval(most, end);
}

static void add_window(struct most *most, uint32_t window)
{
    uint32_t start = 33 * window, job = 63 - window;
    if (window % 9 == 0) {
        most->ticks[most->marks++] = start + 16;
        add_step(most, job, 32, start + 16);
        add_step(most, job, 32, start + 32);
    } else {
        add_step(most, job, 64, start + 32);
    }
    if (window < 63)
        add_interval(most, start + 33);
}

static struct most most_intervals(void)
{
    struct most most = { .all = { .deadline = 32 } };
    for (uint32_t i = 0; i < 64; i++) {
        add_window(&most, i);
        most.all.open.at[i] = most.all.inside.at[i] = i;
    }
    most.all.open.length = most.all.inside.length = 64;
    most.all.steps.length = most.steps;
    return most;
}

/* Its plan with the last step first. */
static struct bytes most_backwards(const struct most *most)
{
    uint32_t steps[STEPS][3];
    for (unsigned s = 0; s < STEPS; s++)
        memcpy(steps[STEPS - 1 - s], most->by_cell[s], sizeof steps[s]);
    return plan_of(INTERVALS, STEPS, (const uint32_t(*)[3])steps);
}

static struct bytes most_prices(const struct most *most)
{
    uint8_t prices[INTERVALS];
    memset(prices, 1, sizeof prices);
    return prices_of(INTERVALS, most->ends, prices);
}

static void most_marks(void)
{
    enum { PLAN = 4 + 6 * STEPS, PRICES = 2 + 5 * INTERVALS, SHARES = 64 * INTERVALS };
    struct most most = most_intervals();
    struct bytes t = level_pair(), jobs = most_jobs(), marks = table(4, most.marks, most.ticks, most.marks), prices = most_prices(&most);
    struct bytes plan = plan_of(most.intervals, most.steps, (const uint32_t(*)[3])most.by_cell), backwards = most_backwards(&most);
    struct ramyearly_plan_answer planned = { .intervals = INTERVALS, .steps = STEPS, .energy = MOST_ENERGY };
    struct ramyearly_plan_answer few_shares = { .number = 14, .place = SHARES }, unmarked = { .intervals = 127, .steps = 64, .energy = MOST_ENERGY };
    written_is("the plan of 64 jobs and 8 marks", plan_marked_is("64 jobs and 8 marks", t, jobs, marks, PLAN, PRICES, SHARES, planned), plan,
        prices, most.shares, SHARES);
    plan_marked_is("64 jobs, 8 marks and few shares", t, jobs, marks, PLAN, PRICES, SHARES - 1, few_shares);
    plan_is("64 jobs without marks", t, jobs, PLAN, PRICES, SHARES, unmarked);
    check_marked_is("64 jobs and 8 marks", t, jobs, marks, plan, prices, (struct ramyearly_check_answer) { .energy = MOST_ENERGY });
    check_is("64 jobs without their marks", t, jobs, plan, prices, (struct ramyearly_check_answer) { .number = 16 });
    order_marked_is("64 jobs and 8 marks", t, jobs, marks, backwards, prices, PLAN, (struct ramyearly_order_answer) { .length = PLAN }, plan);
    touching_marked_is("64 jobs and 8 marks", jobs, marks, backwards, 0, 33 * 64, (struct room) { 64, 64, STEPS }, &most.all);
}

/* By each function that takes marks: where all else is right, and where all is wrong that comes after the marks. */
static void refused(const char *name, struct bytes marks)
{
    struct bytes t = level_pair(), jobs = two_jobs(), overfull_jobs = table(4, 1, (const uint32_t[]) { 0, 4, 17 }, 3), nothing = { .length = 0 };
    fits_marked_is(name, t, jobs, marks, whole_plan(), (struct ramyearly_fits_answer) { .number = 34 });
    fits_marked_is(name, t, jobs, marks, nothing, (struct ramyearly_fits_answer) { .number = 34 });
    check_marked_is(name, t, jobs, marks, whole_plan(), whole_prices(), (struct ramyearly_check_answer) { .number = 34 });
    check_marked_is(name, t, jobs, marks, nothing, nothing, (struct ramyearly_check_answer) { .number = 34 });
    check_marked_is(name, t, jobs, marks, plan_of(5, 0, NULL), nothing, (struct ramyearly_check_answer) { .number = 34 });
    plan_marked_is(name, t, jobs, marks, 64, 32, 16, (struct ramyearly_plan_answer) { .number = 34 });
    plan_marked_is(name, t, overfull_jobs, marks, 0, 0, 0, (struct ramyearly_plan_answer) { .number = 34 });
    order_marked_refused(name, t, jobs, marks, whole_plan(), whole_prices(), 64, 34, 0);
    order_marked_refused(name, t, jobs, marks, nothing, nothing, 0, 34, 0);
    touching_marked_refused(name, jobs, marks, whole_plan(), 10, 14, LONG, 34, 0);
    touching_marked_refused(name, jobs, marks, nothing, 10, 14, NONE, 34, 0);
}

static void tables_refused(void)
{
    struct bytes one = marks_at("11"), many = one;
    many.at[1] = 1;
    refused("no bytes of marks", (struct bytes) { .length = 0 });
    refused("a byte of marks", cut(marks_at("")));
    refused("no marks and a byte", extended(marks_at("")));
    refused("a count of one and no tick", table(4, 1, NULL, 0));
    refused("a byte of a mark missing", cut(one));
    refused("a byte of marks too many", extended(one));
    refused("a mark too many", table(4, 1, (const uint32_t[]) { 11, 12 }, 2));
    refused("a mark too few", table(4, 2, (const uint32_t[]) { 11 }, 1));
    refused("a count of 257", many);
    refused("nine marks", marks_at("10 11 12 13 14 15 16 17 18"));
    refused("a count of nine and no tick", table(4, 9, NULL, 0));
    refused("the largest count", table(4, 65535, NULL, 0));
    refused("a byte of eight marks missing", cut(marks_at("10 11 12 13 14 15 16 17")));
}

/* Marks that would have no effect are looked at too. */
static void ticks_refused(void)
{
    refused("equal marks", marks_at("11 11"));
    refused("falling marks", marks_at("12 11"));
    refused("the last two equal", marks_at("1 2 3 4 5 6 11 11"));
    refused("the last two falling", marks_at("1 2 3 4 5 6 11 10"));
    refused("the first two falling", marks_at("11 10 12 13 14 15 16 17"));
    refused("the first tick twice", marks_at("0 0"));
    refused("equal marks past the limit", marks_at("1000001 1000001"));
    refused("the latest tick twice", marks_at("4294967295 4294967295"));
    refused("from the latest tick to the first", marks_at("4294967295 0"));
    refused("falling in the highest byte alone", marks_at("16777216 255"));
}

/* What is named before a fault of the marks. */
static void named_before(void)
{
    struct bytes t = level_pair(), jobs = two_jobs(), bad = marks_at("11 11"), nothing = { .length = 0 };
    struct bytes empty_window = table(4, 2, (const uint32_t[]) { 10, 14, 13, 13, 6, 4 }, 6);
    struct bytes no_cycles = table(4, 2, (const uint32_t[]) { 10, 14, 12, 13, 6, 0 }, 6);
    check_marked_is("levels before marks", cut(t), jobs, bad, nothing, nothing, (struct ramyearly_check_answer) { .number = 3 });
    check_marked_is("jobs before marks", t, cut(jobs), bad, nothing, nothing, (struct ramyearly_check_answer) { .number = 8 });
    plan_marked_is("a draw before marks", table(2, 2, (const uint32_t[]) { 0, 100, 10, 10 }, 4), jobs, bad, 0, 0, 0,
        (struct ramyearly_plan_answer) { .number = 32, .place = 1 });
    plan_marked_is("a window before marks", t, empty_window, bad, 0, 0, 0, (struct ramyearly_plan_answer) { .number = 9, .place = 1 });
    order_marked_refused("cycles before marks", t, no_cycles, bad, nothing, nothing, 0, 10, 1);
    touching_marked_refused("the span before marks", jobs, bad, nothing, 14, 14, NONE, 33, 0);
    touching_marked_refused("the span before all", nothing, nothing, nothing, 0, 1000001, NONE, 33, 0);
    touching_marked_refused("no bytes of jobs before marks", nothing, bad, nothing, 10, 14, NONE, 6, 0);
    touching_marked_refused("65 jobs before marks", table(4, 65, NULL, 0), bad, nothing, 10, 14, NONE, 7, 0);
    touching_marked_refused("jobs before marks", cut(jobs), bad, nothing, 10, 14, NONE, 8, 0);
    touching_marked_refused("a window before marks", empty_window, bad, nothing, 10, 14, NONE, 9, 1);
    touching_marked_refused("cycles before marks", no_cycles, bad, nothing, 10, 14, NONE, 10, 1);
    touching_marked_refused("the plan after marks", jobs, marks_at("11"), cut(cut_plan()), 10, 14, NONE, 15, 0);
}

void marks(void)
{
    one_cut();
    one_cut_in_order();
    one_cut_touched();
    no_effect();
    some_effect();
    no_jobs();
    other_marks();
    figures();
    overfull();
    most_marks();
    tables_refused();
    ticks_refused();
    named_before();
}
