/* The cases of whether a plan fits: the first half of the check, without prices. */
#include <string.h>

#include "support.h"

/* A plan for the tables of a site. */
struct site {
    struct bytes levels, jobs, marks, plan;
};

/* By both halves: the second, lent no bytes of prices, has gone on to 21. */
static void fits_as(const char *name, struct site s, uint64_t energy)
{
    fits_marked_is(name, s.levels, s.jobs, s.marks, s.plan, (struct ramyearly_fits_answer) { .energy = energy });
    check_marked_is(name, s.levels, s.jobs, s.marks, s.plan, (struct bytes) { .length = 0 }, (struct ramyearly_check_answer) { .number = 21 });
}

/* By both halves: the second with no bytes of prices, and with prices that would fit most plans. */
static void refused(const char *name, struct site s, uint32_t number, uint32_t place)
{
    struct ramyearly_check_answer wanted = { .number = number, .place = place };
    struct bytes prices = prices_of(5, (const uint32_t[]) { 2, 3, 4, 6, 8 }, (const uint8_t[]) { 1, 2, 2, 1, 2 });
    fits_marked_is(name, s.levels, s.jobs, s.marks, s.plan, (struct ramyearly_fits_answer) { .number = number, .place = place });
    check_marked_is(name, s.levels, s.jobs, s.marks, s.plan, (struct bytes) { .length = 0 }, wanted);
    check_marked_is(name, s.levels, s.jobs, s.marks, s.plan, prices, wanted);
}

/* Under T one job 0 2 of 4 cycles, with a mark at 1: so many of its cycles before the mark, and the others after it. */
static struct site around_mark(uint32_t before)
{
    struct site s = { level_pair(), table(4, 1, (const uint32_t[]) { 0, 2, 4 }, 3), marks_at("1"), { .length = 0 } };
    const uint32_t both[][3] = { { 0, 0, before }, { 1, 0, 4 - before } };
    s.plan = before == 4 ? plan_of(2, 1, both) : before == 0 ? plan_of(2, 1, both + 1) : plan_of(2, 2, both);
    return s;
}

static void priced_is(const char *name, struct site s, uint8_t before, uint8_t after, struct ramyearly_check_answer wanted)
{
    struct bytes prices = prices_of(2, (const uint32_t[]) { 1, 2 }, (const uint8_t[]) { before, after });
    check_marked_is(name, s.levels, s.jobs, s.marks, s.plan, prices, wanted);
}

/* All of its cycles in one tick fit: 2 x 100 + 2 x 700. So do 3 and 1: 3 x 100 + 1 x 700. With 2 in each tick 4 x 100 would do, and only
 * that plan has prices which the check accepts. */
static void less_would_do(void)
{
    struct site first = around_mark(4), halves = around_mark(2);
    fits_as("all cycles in the first tick", first, 1600);
    fits_as("all cycles in the second tick", around_mark(0), 1600);
    fits_as("a cycle in the second tick", around_mark(3), 1000);
    fits_as("a cycle in the first tick", around_mark(1), 1000);
    fits_as("half of the cycles in each tick", halves, 400);
    priced_is("the top priced 1", first, 1, 1, (struct ramyearly_check_answer) { .number = 23, .place = 0 });
    priced_is("the top priced 1, idling 2", first, 1, 2, (struct ramyearly_check_answer) { .number = 23, .place = 0 });
    priced_is("idling priced 2", first, 2, 2, (struct ramyearly_check_answer) { .number = 23, .place = 1 });
    priced_is("a cheaper tick", first, 2, 1, (struct ramyearly_check_answer) { .number = 24, .place = 0 });
    priced_is("halves in band 1", halves, 1, 1, (struct ramyearly_check_answer) { .energy = 400 });
    priced_is("halves at its end", halves, 2, 2, (struct ramyearly_check_answer) { .energy = 400 });
}

/* Under T jobs 0 4 6, 2 3 4 and 6 8 5. Bounds 0, 2, 3, 4, 6, 8; no job is open from 4 to 6, the fourth interval. The top is 8, 4, 4,
 * 8 and 8. */
enum { INTERVALS = 5, STEPS = 4 };

/* Made by hand: loads 3, 4, 3, 0 and 5. In band 1 are 3, 2, 2, 0 and 4 cycles, in band 2 the 2, 1 and 1 above: 11 x 100 + 4 x 700. With
 * one cycle of the first job from 3 to 4 moved to its first interval 3,300 would do. */
static const uint32_t hand_made[STEPS][3] = { { 0, 0, 3 }, { 1, 1, 4 }, { 2, 0, 3 }, { 4, 2, 5 } };

static struct site with_plan(struct bytes plan)
{
    return (struct site) { level_pair(), table(4, 3, (const uint32_t[]) { 0, 4, 2, 3, 6, 8, 6, 4, 5 }, 9), marks_at(""), plan };
}

static struct site as_made(void)
{
    return with_plan(plan_of(INTERVALS, STEPS, hand_made));
}

/* Its first steps, and then these. */
static struct site changed(unsigned kept, unsigned count, const uint32_t (*steps)[3])
{
    uint32_t all[STEPS + 4][3];
    memcpy(all, hand_made, kept * sizeof *all);
    memcpy(all + kept, steps, count * sizeof *all);
    return with_plan(plan_of(INTERVALS, kept + count, (const uint32_t(*)[3])all));
}

#define CHANGED(kept, ...) \
    changed(kept, sizeof (const uint32_t[][3]) { __VA_ARGS__ } / sizeof(uint32_t[3]), (const uint32_t[][3]) { __VA_ARGS__ })

static void by_hand(void)
{
    fits_as("a plan made by hand", as_made(), 3900);
    fits_as("its steps backwards", CHANGED(0, { 4, 2, 5 }, { 2, 0, 3 }, { 1, 1, 4 }, { 0, 0, 3 }), 3900);
    fits_as("its steps mixed", CHANGED(0, { 1, 1, 4 }, { 4, 2, 5 }, { 0, 0, 3 }, { 2, 0, 3 }), 3900);
    fits_as("the least plan", CHANGED(0, { 0, 0, 4 }, { 1, 1, 4 }, { 2, 0, 2 }, { 4, 2, 5 }), 3300);
    /* Loads 6, 4, 0, 0 and 5: 10 x 100 + 5 x 700. */
    fits_as("every job in its first interval", CHANGED(0, { 0, 0, 6 }, { 1, 1, 4 }, { 4, 2, 5 }), 4500);
}

static void no_jobs(void)
{
    struct site s = { level_pair(), table(4, 0, NULL, 0), marks_at(""), plan_of(0, 0, NULL) };
    fits_as("no jobs", s, 0);
    s.marks = marks_at("0 5 4294967295");
    fits_as("no jobs and marks", s, 0);
    s.levels = table(2, 3, (const uint32_t[]) { 0, 100, 200, 9, 10, 10 }, 6);
    fits_as("no jobs and a draw", s, 0);
    s.plan = plan_of(1, 0, NULL);
    refused("no jobs and an interval", s, 16, 0);
    s.plan = plan_of(0, 1, (const uint32_t[][3]) { { 0, 0, 1 } });
    refused("no jobs and a step", s, 17, 0);
}

/* One job from 2 to 5 with a mark at 3, and this many of its cycles in the tick before it. */
static struct site cut_job(struct bytes levels, uint32_t cycles, uint32_t before)
{
    struct site s = { levels, table(4, 1, (const uint32_t[]) { 2, 5, cycles }, 3), marks_at("3"), { .length = 0 } };
    s.plan = plan_of(2, 2, (const uint32_t[][3]) { { 1, 0, cycles - before }, { 0, 0, before } });
    return s;
}

/* Idling draws 9,000, and 100 and 200 at 10 have powers 10,000 and 20,000: prices 10 and 100. Without a draw 100 is dropped, and the
 * price is 20,000 / 200. The draw is paid for the 3 ticks of the window, and for none before it. */
static void draws(void)
{
    struct bytes draw = table(2, 3, (const uint32_t[]) { 0, 100, 200, 9, 10, 10 }, 6);
    struct bytes no_draw = table(2, 3, (const uint32_t[]) { 0, 100, 200, 0, 10, 10 }, 6);
    /* 100 + 150 cycles in band 1 and 100 in band 2: 27,000 + 2,500 + 10,000. */
    fits_as("a draw and the top in the first tick", cut_job(draw, 350, 200), 39500);
    /* 1 + 200 in band 1 and 149 in band 2: 27,000 + 2,010 + 14,900. */
    fits_as("a draw and a cycle in the first tick", cut_job(draw, 350, 1), 43910);
    fits_as("free idling", cut_job(no_draw, 350, 200), 35000);
    refused("a draw and past the top", cut_job(draw, 350, 201), 20, 0);
    /* 400 is the top of the two ticks after the mark. */
    fits_as("a draw and the top after the mark", cut_job(draw, 401, 1), 27000 + 201 * 10 + 200 * 100);
    refused("a draw and past the top after the mark", cut_job(draw, 402, 1), 20, 1);
}

/* The first built-in table: prices 8,100, 15,700 and 2,449,300 / 133 of its first bands, which end at 300, 400 and 533. A band's cycles of
 * all intervals are rounded down once. */
static void rounding(void)
{
    struct bytes levels = table(2, 5, (const uint32_t[]) { 300, 400, 533, 667, 800, 90, 100, 110, 120, 130 }, 10);
    /* 401 and 801: in band 1 300 + 600, in band 2 100 + 200, in band 3 1 + 1 cycles: 7,290,000 + 4,710,000 + 36,831 75/133. Each by
     * itself, band 3 would have 2 x 18,415. */
    fits_as("rounded once", cut_job(levels, 1202, 401), 7290000 + 4710000 + 36831);
    /* 403 and 799: in band 2 100 + 199, and 3 x 2,449,300 / 133 is 55,247 49/133. */
    fits_as("three cycles rounded once", cut_job(levels, 1202, 403), 7290000 + 4694300 + 55247);
}

/* Under T jobs 0 4 9 and 0 4 7 with a mark at 2 fill both intervals: 8 cycles are the top of each. */
static struct site filled(uint32_t first, uint32_t second)
{
    struct site s = { level_pair(), table(4, 2, (const uint32_t[]) { 0, 4, 0, 4, 9, 7 }, 6), marks_at("2"), { .length = 0 } };
    s.plan = plan_of(2, 4, (const uint32_t[][3]) { { 0, 0, first }, { 1, 0, 9 - first }, { 0, 1, second }, { 1, 1, 7 - second } });
    return s;
}

static void at_the_top(void)
{
    fits_as("both at the top", filled(5, 3), 8 * 100 + 8 * 700);
    fits_as("both at the top by other steps", filled(2, 6), 8 * 100 + 8 * 700);
    refused("one past the top in the first", filled(6, 3), 20, 0);
    refused("one past the top in the second", filled(5, 2), 20, 1);
}

/* Only 200 works of 100 and 200 at 10: the top is that of all levels, and 20,000 / 200 the one price. */
static void dropped_level(void)
{
    struct site s = { table(2, 2, (const uint32_t[]) { 100, 200, 10, 10 }, 4), table(4, 1, (const uint32_t[]) { 0, 1, 200 }, 3), marks_at(""),
        plan_of(1, 1, (const uint32_t[][3]) { { 0, 0, 200 } }) };
    fits_as("the top beside a dropped level", s, 20000);
    s.jobs = table(4, 1, (const uint32_t[]) { 0, 1, 201 }, 3);
    s.plan = plan_of(1, 1, (const uint32_t[][3]) { { 0, 0, 201 } });
    refused("past the top beside a dropped level", s, 20, 0);
}

/* 1,000 at 500, and one job that it just serves in the longest window: 1,000,000,000 x 250,000. */
static void largest_numbers(void)
{
    struct site s = { table(2, 1, (const uint32_t[]) { 1000, 500 }, 2), table(4, 1, (const uint32_t[]) { 0, 1000000, 1000000000 }, 3),
        marks_at(""), plan_of(1, 1, (const uint32_t[][3]) { { 0, 0, 1000000000 } }) };
    fits_as("the largest job", s, 250000000000000);
    /* In 32 bits the load of 4,294,967,297 would be 1, and the sum of 5,294,967,296 the job's 1,000,000,000. */
    s.levels = level_pair();
    s.jobs = table(4, 5, (const uint32_t[]) { 0, 1, 0, 1, 0, 1, 0, 1, 0, 1, 1000000000, 1000000000, 1000000000, 1000000000, 294967297 }, 15);
    s.plan = plan_of(1, 5, (const uint32_t[][3]) { { 0, 0, 1000000000 }, { 0, 1, 1000000000 }, { 0, 2, 1000000000 }, { 0, 3, 1000000000 },
        { 0, 4, 294967297 } });
    refused("a load without room in 32 bits", s, 20, 0);
    s.jobs = table(4, 1, (const uint32_t[]) { 0, 6, 1000000000 }, 3);
    s.marks = marks_at("1 2 3 4 5");
    s.plan = plan_of(6, 6, (const uint32_t[][3]) { { 0, 0, 1000000000 }, { 1, 0, 1000000000 }, { 2, 0, 1000000000 }, { 3, 0, 1000000000 },
        { 4, 0, 1000000000 }, { 5, 0, 294967296 } });
    refused("a sum without room in 32 bits", s, 19, 0);
}

/* 64 jobs 0 64 of 4 cycles, and the last with more: all together 256 are the top, 128 x 100 + 128 x 700. */
static struct site most_jobs(uint32_t last)
{
    uint32_t numbers[3 * 64] = { 0 }, steps[64][3] = { { 0 } };
    for (uint32_t j = 0; j < 64; j++) {
        numbers[2 * j + 1] = 64;
        steps[j][1] = j;
        steps[j][2] = numbers[128 + j] = j < 63 ? 4 : last;
    }
    return (struct site) { level_pair(), table(4, 64, numbers, 3 * 64), marks_at(""), plan_of(1, 64, (const uint32_t(*)[3])steps) };
}

static void many_jobs(void)
{
    struct site s = most_jobs(4);
    fits_as("64 jobs at the top", s, 102400);
    refused("64 jobs past the top", most_jobs(5), 20, 0);
    s.plan = most_jobs(3).plan;
    refused("64 jobs and a cycle of the last missing", s, 19, 63);
}

/* Each of 15 to 20 alone, with the place of each. */
static void plans_refused(void)
{
    refused("no bytes of a plan", with_plan((struct bytes) { .length = 0 }), 15, 0);
    refused("three bytes of a plan", with_plan(cut(plan_of(INTERVALS, 0, NULL))), 15, 0);
    refused("an interval less", with_plan(plan_of(INTERVALS - 1, STEPS, hand_made)), 16, 0);
    refused("an interval more", with_plan(plan_of(INTERVALS + 1, STEPS, hand_made)), 16, 0);
    refused("intervals of 256 more", with_plan(plan_of(INTERVALS + 256, STEPS, hand_made)), 16, 0);
    refused("a job before its release", CHANGED(3, { 3, 2, 5 }), 17, 3);
    refused("a job after its deadline", CHANGED(1, { 2, 1, 4 }, { 2, 0, 3 }, { 4, 2, 5 }), 17, 1);
    refused("no such interval", CHANGED(3, { 5, 2, 5 }), 17, 3);
    refused("no such job", CHANGED(3, { 4, 3, 5 }), 17, 3);
    refused("a cell twice", CHANGED(3, { 4, 2, 2 }, { 4, 2, 3 }), 17, 4);
    refused("no cycles", CHANGED(3, { 4, 2, 5 }, { 1, 0, 0 }), 18, 4);
    refused("more than the job's cycles", CHANGED(3, { 4, 2, 6 }), 18, 3);
    refused("a cycle missing", CHANGED(3, { 4, 2, 4 }), 19, 2);
    refused("a cycle too many", CHANGED(2, { 2, 0, 4 }, { 4, 2, 5 }), 19, 0);
    refused("a job without a step", CHANGED(1, { 2, 0, 3 }, { 4, 2, 5 }), 19, 1);
    refused("no steps", with_plan(plan_of(INTERVALS, 0, NULL)), 19, 0);
    /* From 2 to 3 the second job has the 4 of the top already, and from 3 to 4 the first has 5. */
    refused("past the top", CHANGED(0, { 4, 2, 5 }, { 2, 0, 5 }, { 1, 1, 4 }, { 0, 0, 1 }), 20, 2);
    refused("past the top by two jobs", CHANGED(0, { 0, 0, 5 }, { 1, 0, 1 }, { 1, 1, 4 }, { 4, 2, 5 }), 20, 1);
    refused("past the top twice", CHANGED(0, { 2, 0, 5 }, { 1, 0, 1 }, { 1, 1, 4 }, { 4, 2, 5 }), 20, 1);
}

/* Each of them beside a later one, which would have another place wherever it can. */
static void in_order(void)
{
    refused("15 before 16", with_plan(cut(plan_of(INTERVALS - 1, STEPS, hand_made))), 15, 0);
    refused("15 before 17", with_plan(extended(CHANGED(3, { 5, 2, 5 }).plan)), 15, 0);
    refused("16 before 17", with_plan(plan_of(INTERVALS + 1, 2, (const uint32_t[][3]) { { 0, 0, 3 }, { 5, 0, 3 } })), 16, 0);
    refused("16 before 19", with_plan(plan_of(INTERVALS - 1, STEPS - 1, hand_made)), 16, 0);
    refused("17 before 18 at one step", CHANGED(3, { 3, 2, 0 }), 17, 3);
    refused("17 before 18 at a later step", CHANGED(2, { 0, 0, 3 }, { 4, 2, 6 }), 17, 2);
    refused("18 before 17 at a later step", CHANGED(2, { 2, 0, 7 }, { 3, 2, 5 }), 18, 2);
    refused("18 before 19", CHANGED(1, { 2, 0, 3 }, { 4, 2, 6 }), 18, 2);
    refused("17 before 20", CHANGED(0, { 2, 0, 6 }, { 3, 2, 5 }, { 1, 1, 4 }), 17, 1);
    /* The third job lacks a cycle, and the first loads the second interval past the top. */
    refused("19 before 20", CHANGED(0, { 0, 0, 5 }, { 1, 0, 1 }, { 1, 1, 4 }, { 4, 2, 4 }), 19, 2);
    refused("19 of the first job", CHANGED(1, { 2, 0, 2 }, { 4, 2, 4 }), 19, 0);
}

/* With a plan that has a fault of each kind, and with one of no bytes. */
static void refused_before_plan(const char *name, struct bytes levels, struct bytes jobs, struct bytes marks, uint32_t number, uint32_t place)
{
    refused(name, (struct site) { levels, jobs, marks, { .length = 0 } }, number, place);
    refused(name, (struct site) { levels, jobs, marks, plan_of(9, 2, (const uint32_t[][3]) { { 9, 9, 0 }, { 9, 9, 0 } }) }, number, place);
    refused(name, (struct site) { levels, jobs, marks, as_made().plan }, number, place);
}

/* 1 to 5, 31 and 32, with jobs and marks that are damaged too. */
static void levels_refused(const char *name, struct bytes levels, uint32_t number, uint32_t place)
{
    refused_before_plan(name, levels, (struct bytes) { .length = 0 }, (struct bytes) { .length = 0 }, number, place);
    refused_before_plan(name, levels, as_made().jobs, marks_at(""), number, place);
}

/* 6 to 10, with marks that are damaged too. */
static void jobs_refused(const char *name, struct bytes jobs, uint32_t number, uint32_t place)
{
    refused_before_plan(name, level_pair(), jobs, (struct bytes) { .length = 0 }, number, place);
    refused_before_plan(name, level_pair(), jobs, marks_at(""), number, place);
}

static void tables_refused(void)
{
    levels_refused("no bytes of levels", (struct bytes) { .length = 0 }, 1, 0);
    levels_refused("no levels", table(2, 0, NULL, 0), 2, 0);
    levels_refused("nine levels", table(2, 9, NULL, 0), 2, 0);
    levels_refused("a byte of levels missing", cut(level_pair()), 3, 0);
    levels_refused("equal frequencies", table(2, 2, (const uint32_t[]) { 2, 2, 10, 20 }, 4), 4, 1);
    levels_refused("a falling voltage", table(2, 2, (const uint32_t[]) { 2, 4, 10, 9 }, 4), 5, 1);
    levels_refused("the idle entry alone", table(2, 1, (const uint32_t[]) { 0, 9 }, 2), 31, 0);
    levels_refused("a draw as high as a level", table(2, 2, (const uint32_t[]) { 0, 100, 10, 10 }, 4), 32, 1);
    jobs_refused("a byte of jobs", cut(table(4, 0, NULL, 0)), 6, 0);
    jobs_refused("65 jobs", table(4, 65, NULL, 0), 7, 0);
    jobs_refused("a byte of jobs too many", extended(as_made().jobs), 8, 0);
    jobs_refused("an empty window", table(4, 2, (const uint32_t[]) { 0, 4, 3, 3, 6, 4 }, 6), 9, 1);
    jobs_refused("too many cycles", table(4, 2, (const uint32_t[]) { 0, 4, 2, 3, 6, 1000000001 }, 6), 10, 1);
    refused_before_plan("no bytes of marks", level_pair(), as_made().jobs, (struct bytes) { .length = 0 }, 34, 0);
    refused_before_plan("equal marks", level_pair(), as_made().jobs, marks_at("5 5"), 34, 0);
    refused_before_plan("nine marks", level_pair(), as_made().jobs, marks_at("1 2 3 4 5 6 7 8 9"), 34, 0);
}

/* The table with any length but its own, up to 100 bytes more: the one refusal from two bytes on, the other below. */
static void any_length(const char *name, struct bytes *in, struct site *s, uint32_t below, uint32_t other)
{
    size_t right = in->length;
    for (in->length = 0; in->length <= right + 100; in->length++)
        if (in->length != right)
            refused(name, *s, in->length < 2 ? below : other, 0);
    in->length = right;
}

/* Whatever the bytes past the table are: zeros, and the largest. */
static void stray_bytes(void)
{
    for (unsigned byte = 0; byte < 256; byte += 255) {
        struct site s = as_made();
        struct bytes *tables[] = { &s.levels, &s.jobs, &s.marks, &s.plan };
        for (unsigned i = 0; i < 4; i++)
            memset(tables[i]->at + tables[i]->length, (int)byte, sizeof tables[i]->at - tables[i]->length);
        any_length("any bytes of levels", &s.levels, &s, 1, 3);
        any_length("any bytes of jobs", &s.jobs, &s, 6, 8);
        any_length("any bytes of marks", &s.marks, &s, 34, 34);
        any_length("any bytes of a plan", &s.plan, &s, 15, 15);
        fits_as("the bytes that were lent", s, 3900);
    }
}

/* A plan goes with its marks: one at 1 cuts the first interval, and one at 2 is a bound already. */
static void other_marks(void)
{
    struct site s = as_made();
    s.marks = marks_at("0 2 3 6 8 9");
    fits_as("marks without effect", s, 3900);
    s.marks = marks_at("1");
    refused("a mark that the plan does not have", s, 16, 0);
    /* Loads 3 and 0 in a tick each: 2 x 100 + 1 x 700 in place of 3 x 100. */
    s.plan = plan_of(INTERVALS + 1, STEPS, (const uint32_t[][3]) { { 0, 0, 3 }, { 2, 1, 4 }, { 3, 0, 3 }, { 5, 2, 5 } });
    fits_as("a mark that the plan has", s, 4500);
    s.marks = marks_at("");
    refused("a plan without its mark", s, 16, 0);
}

void fits(void)
{
    less_would_do();
    by_hand();
    no_jobs();
    draws();
    rounding();
    at_the_top();
    dropped_level();
    largest_numbers();
    many_jobs();
    plans_refused();
    in_order();
    tables_refused();
    stray_bytes();
    other_marks();
}
