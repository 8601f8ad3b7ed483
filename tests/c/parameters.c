/* The cases of site parameters: what they alter. */
#include "support.h"

static const struct room NONE = { 0, 0, 0 }, LONG = { 100, 100, 100 };

/* 1 at 10, 2 at 20, 4 at 25 and 20 at 25: powers 100, 800, 2,500 and 12,500. Of all four, 2 and 4 are dropped: the prices are 100 and
 * 12,400 / 19. Of the first three all work, at prices 100, 700 and 1,700 / 2. */
static struct bytes four_levels(void)
{
    return table(2, 4, (const uint32_t[]) { 1, 2, 4, 20, 10, 20, 25, 25 }, 8);
}

static struct bytes three_levels(void)
{
    return table(2, 3, (const uint32_t[]) { 1, 2, 4, 10, 20, 25 }, 6);
}

/* With the first three levels, 2 free ticks and 20 percent, jobs 0 6 5 and 2 5 3 become 0 4 6 and 2 3 4. */
static const struct parameters PARAMETERS = { 3, 2, 20 };

static struct bytes given_jobs(void)
{
    return table(4, 2, (const uint32_t[]) { 0, 6, 2, 5, 5, 3 }, 6);
}

static struct bytes altered_jobs(void)
{
    return table(4, 2, (const uint32_t[]) { 0, 4, 2, 3, 6, 4 }, 6);
}

/* Bounds 0, 2, 3 and 4. The second job's cycles fill its tick to the top, and those of the first fill band 2 in the three ticks that are
 * left, which no other plan does for as little: 4 x 100 + 4 x 700 + 2 x 850. */
enum { INTERVALS = 3, PLAN = 4 + 6 * 4, PRICES = 2 + 5 * INTERVALS, SHARES = 2 * INTERVALS };
static const uint64_t ENERGY = 4900;
static const uint32_t shares[SHARES] = { 4, 0, 0, 4, 2, 0 };

static struct bytes altered_plan(void)
{
    return plan_of(INTERVALS, 3, (const uint32_t[][3]) { { 0, 0, 4 }, { 1, 1, 4 }, { 2, 0, 2 } });
}

static struct bytes backwards(void)
{
    return plan_of(INTERVALS, 3, (const uint32_t[][3]) { { 2, 0, 2 }, { 1, 1, 4 }, { 0, 0, 4 } });
}

static struct bytes prices_with(uint8_t first, uint8_t second, uint8_t third)
{
    return prices_of(INTERVALS, (const uint32_t[]) { 2, 3, 4 }, (const uint8_t[]) { first, second, third });
}

static struct bytes altered_prices(void)
{
    return prices_with(2, 3, 2);
}

/* Every operation, of tables with parameters. The answers are those for the altered tables. */
static void is_altered_site(const char *name, struct bytes levels, struct bytes jobs, struct bytes marks, struct parameters p)
{
    struct bytes plan = altered_plan(), prices = altered_prices(), mixed = backwards();
    struct ramyearly_plan_answer planned = { .intervals = INTERVALS, .steps = 3, .energy = ENERGY };
    struct touched before = { list_of("0 1"), list_of("1"), list_of("65 128"), 3 }, after = { list_of(""), list_of(""), list_of(""), 4 };
    /* The second job fills its own tick, and from 0 to 4 are 16 less 10 cycles. */
    const struct list most = list_of("1 0 0 6");
    /* From 2 to 4 are 2 x 4 less the 4 cycles of the second job, and from 0 on both are inside. */
    spare_altered_is(name, levels, jobs, p, 2, 4, (struct ramyearly_spare_answer) { .spare = 4 });
    spare_altered_is(name, levels, jobs, p, 0, 4, (struct ramyearly_spare_answer) { .spare = 6 });
    setting_altered_is(name, levels, p.highest, 3, 7, (struct ramyearly_setting_answer) { .band = 3, .extra = 1, .gap = 2 });
    setting_altered_is(name, levels, p.highest, 3, 13, (struct ramyearly_setting_answer) { .number = 26 });
    written_is(name, plan_altered_is(name, levels, jobs, marks, p, PLAN, PRICES, SHARES, planned), plan, prices, shares, SHARES);
    plan_altered_is(name, levels, jobs, marks, p, PLAN - 1, PRICES, SHARES, (struct ramyearly_plan_answer) { .number = 12, .place = PLAN });
    plan_altered_is(name, levels, jobs, marks, p, PLAN, PRICES - 1, SHARES, (struct ramyearly_plan_answer) { .number = 13, .place = PRICES });
    plan_altered_is(name, levels, jobs, marks, p, PLAN, PRICES, SHARES - 1, (struct ramyearly_plan_answer) { .number = 14, .place = SHARES });
    fits_altered_is(name, levels, jobs, marks, p, mixed, (struct ramyearly_fits_answer) { .energy = ENERGY });
    check_altered_is(name, levels, jobs, marks, p, mixed, prices, (struct ramyearly_check_answer) { .energy = ENERGY });
    check_altered_is(name, levels, jobs, marks, p, plan, prices_with(3, 3, 3), (struct ramyearly_check_answer) { .energy = ENERGY });
    order_altered_is(name, levels, jobs, marks, p, mixed, prices, 22, (struct ramyearly_order_answer) { .length = 22 }, plan);
    order_altered_refused(name, levels, jobs, marks, p, mixed, prices, 21, 12, 22);
    nearest_altered_is(name, levels, jobs, p, 4, &most);
    nearest_altered_refused(name, levels, jobs, p, 3, (struct ramyearly_nearest_answer) { .number = 14, .place = 4 });
    touching_altered_is(name, jobs, marks, p, mixed, 2, 4, LONG, &before);
    touching_altered_is(name, jobs, marks, p, mixed, 4, 6, NONE, &after);
    touching_altered_refused(name, jobs, marks, p, mixed, 2, 4, (struct room) { 2, 1, 1 }, 14, 2);
}

/* Altered by any part of the three, with the rest altered by hand. The marks are no bounds: they would be without free ticks, or are bounds
 * already. */
static void same_as_by_hand(void)
{
    struct bytes four = four_levels(), three = three_levels(), given = given_jobs(), altered = altered_jobs(), none = marks_at("");
    struct bytes early = table(4, 2, (const uint32_t[]) { 0, 4, 2, 3, 5, 3 }, 6), more = table(4, 2, (const uint32_t[]) { 0, 6, 2, 5, 6, 4 }, 6);
    is_altered_site("by hand", three, altered, none, (struct parameters) { 3, 0, 0 });
    is_altered_site("by all three", four, given, none, PARAMETERS);
    is_altered_site("by the highest level", four, altered, none, (struct parameters) { 3, 0, 0 });
    is_altered_site("by free ticks", three, more, none, (struct parameters) { 3, 2, 0 });
    is_altered_site("by the margin", three, early, none, (struct parameters) { 3, 0, 20 });
    is_altered_site("by all but the highest level", three, given, none, PARAMETERS);
    is_altered_site("by all but free ticks", four, early, none, (struct parameters) { 3, 0, 20 });
    is_altered_site("by all but the margin", four, more, none, (struct parameters) { 3, 2, 0 });
    is_altered_site("marks without effect", four, given, marks_at("0 2 3 4 5 6"), PARAMETERS);
    is_altered_site("the smallest margin alike", four, given, none, (struct parameters) { 3, 2, 1 });
}

/* Of the plan with its prices, by the check and by ordering; and without prices where it is refused before them. */
static void others_refuse(const char *name, struct parameters p, uint32_t number, uint32_t place)
{
    struct bytes four = four_levels(), jobs = given_jobs(), none = marks_at(""), plan = altered_plan(), prices = altered_prices();
    check_altered_is(name, four, jobs, none, p, plan, prices, (struct ramyearly_check_answer) { .number = number, .place = place });
    order_altered_refused(name, four, jobs, none, p, plan, prices, 22, number, place);
    if (number < 21 || number > 24)
        fits_altered_is(name, four, jobs, none, p, plan, (struct ramyearly_fits_answer) { .number = number, .place = place });
}

static void other_parameters(void)
{
    /* 4 cycles are past a top of 2 in one tick, and past a top of 1 in two. With all levels there are two bands. */
    others_refuse("a lower highest level", (struct parameters) { 2, 2, 20 }, 20, 1);
    others_refuse("the lowest highest level", (struct parameters) { 1, 2, 20 }, 20, 0);
    others_refuse("a higher highest level", (struct parameters) { 4, 2, 20 }, 22, 1);
    /* The second interval ends at 4, and at 5. */
    others_refuse("a free tick less", (struct parameters) { 3, 1, 20 }, 22, 1);
    others_refuse("no free ticks", (struct parameters) { 3, 0, 20 }, 22, 1);
    others_refuse("a free tick more", (struct parameters) { 3, 3, 20 }, 36, 1);
    /* The second job has 3 cycles; with 21 percent the first has 5 and 1.05, rounded up. */
    others_refuse("no margin", (struct parameters) { 3, 2, 0 }, 18, 1);
    others_refuse("a margin of a percent more", (struct parameters) { 3, 2, 21 }, 19, 0);
    others_refuse("the largest margin", (struct parameters) { 3, 2, 100 }, 19, 0);
    others_refuse("nothing altered", (struct parameters) { 4, 0, 0 }, 18, 1);
}

/* The plan fits with all levels too, at their prices: 4 x 100 + 6 x 12,400 / 19. */
static void all_levels(void)
{
    struct bytes four = four_levels(), jobs = given_jobs(), none = marks_at("");
    struct parameters p = { 4, 2, 20 };
    fits_altered_is("all levels", four, jobs, none, p, altered_plan(), (struct ramyearly_fits_answer) { .energy = 4315 });
    check_altered_is("all levels", four, jobs, none, p, altered_plan(), prices_with(2, 2, 2), (struct ramyearly_check_answer) { .energy = 4315 });
}

static void setting_of(uint32_t highest, uint64_t load, struct ramyearly_setting_answer wanted)
{
    struct bytes idle = table(2, 5, (const uint32_t[]) { 0, 1, 2, 4, 20, 0, 10, 20, 25, 25 }, 10);
    setting_altered_is("a setting by the highest level", four_levels(), highest, 3, load, wanted);
    setting_altered_is("a setting by the highest level, an idle entry", idle, highest, 3, load, wanted);
}

/* In 3 ticks, up to the top of each highest level and past it. */
static void settings(void)
{
    setting_of(1, 3, (struct ramyearly_setting_answer) { .band = 1, .extra = 3, .gap = 1 });
    setting_of(1, 4, (struct ramyearly_setting_answer) { .number = 26 });
    setting_of(2, 4, (struct ramyearly_setting_answer) { .band = 2, .extra = 1, .gap = 1 });
    setting_of(2, 6, (struct ramyearly_setting_answer) { .band = 2, .extra = 3, .gap = 1 });
    setting_of(2, 7, (struct ramyearly_setting_answer) { .number = 26 });
    setting_of(3, 7, (struct ramyearly_setting_answer) { .band = 3, .extra = 1, .gap = 2 });
    setting_of(3, 12, (struct ramyearly_setting_answer) { .band = 3, .extra = 6, .gap = 2 });
    setting_of(3, 13, (struct ramyearly_setting_answer) { .number = 26 });
    setting_of(4, 4, (struct ramyearly_setting_answer) { .band = 2, .extra = 1, .gap = 19 });
    setting_of(4, 60, (struct ramyearly_setting_answer) { .band = 2, .extra = 57, .gap = 19 });
    setting_of(4, 61, (struct ramyearly_setting_answer) { .number = 26 });
    setting_of(2, 0, (struct ramyearly_setting_answer) { .number = 0 });
}

static void spare_of(struct parameters p, uint32_t start, uint32_t end, int64_t spare)
{
    spare_altered_is("a spare by parameters", four_levels(), given_jobs(), p, start, end, (struct ramyearly_spare_answer) { .spare = spare });
}

/* Of jobs 0 6 5 and 2 5 3. */
static void spares(void)
{
    spare_of((struct parameters) { 1, 0, 0 }, 0, 6, 6 - 8);
    spare_of((struct parameters) { 2, 0, 0 }, 0, 6, 12 - 8);
    spare_of((struct parameters) { 4, 0, 0 }, 0, 6, 120 - 8);
    /* The deadlines are 5 and 4, and no release is earlier: the window from 1 on has the second job alone. */
    spare_of((struct parameters) { 2, 1, 0 }, 0, 5, 10 - 8);
    spare_of((struct parameters) { 2, 1, 0 }, 0, 4, 8 - 3);
    spare_of((struct parameters) { 2, 1, 0 }, 1, 5, 8 - 3);
    spare_of((struct parameters) { 2, 1, 0 }, 2, 4, 4 - 3);
    spare_of((struct parameters) { 2, 1, 0 }, 3, 5, 4);
    spare_of((struct parameters) { 2, 0, 100 }, 0, 6, 12 - 16);
    spare_of((struct parameters) { 2, 0, 40 }, 0, 6, 12 - 7 - 5);
    spare_of((struct parameters) { 2, 0, 41 }, 0, 6, 12 - 8 - 5);
}

/* One job 0 1 of so many cycles, which have become so many. */
static void margin_is(uint32_t margin, uint32_t cycles, int64_t altered)
{
    struct bytes jobs = table(4, 1, (const uint32_t[]) { 0, 1, cycles }, 3);
    spare_altered_is("cycles with a margin", level_pair(), jobs, (struct parameters) { 2, 0, margin }, 0, 1,
        (struct ramyearly_spare_answer) { .spare = 4 - altered });
}

static void margins(void)
{
    struct bytes two = table(4, 2, (const uint32_t[]) { 0, 2, 0, 2, 1, 1 }, 6);
    margin_is(0, 1, 1);
    margin_is(1, 1, 2);
    margin_is(100, 1, 2);
    margin_is(1, 99, 100);
    margin_is(1, 100, 101);
    margin_is(1, 101, 103);
    margin_is(50, 3, 5);
    margin_is(15, 20, 23);
    margin_is(15, 21, 25);
    margin_is(99, 100, 199);
    margin_is(99, 101, 201);
    margin_is(100, 500000000, 1000000000);
    /* 100 x 42,949,673 is 4 in 32 bits, and 99 x 43,383,508 is 4,294,967,292, just below them. */
    margin_is(100, 42949673, 85899346);
    margin_is(99, 43383508, 86333181);
    margin_is(99, 43383509, 86333183);
    /* Rounded up job by job: 2 and 2, and not the 3 of the sum. */
    spare_altered_is("two jobs of a cycle", level_pair(), two, (struct parameters) { 2, 0, 1 }, 0, 2,
        (struct ramyearly_spare_answer) { .spare = 8 - 4 });
    check_altered_is("two jobs of a cycle", level_pair(), two, marks_at(""), (struct parameters) { 2, 0, 1 },
        plan_of(1, 2, (const uint32_t[][3]) { { 0, 0, 2 }, { 0, 1, 2 } }), prices_of(1, (const uint32_t[]) { 2 }, (const uint8_t[]) { 1 }),
        (struct ramyearly_check_answer) { .energy = 400 });
}

static void overfull_is(const char *name, struct parameters p, uint32_t start, uint32_t end, int64_t spare)
{
    plan_altered_is(name, four_levels(), given_jobs(), marks_at("1"), p, 64, 32, 16,
        (struct ramyearly_plan_answer) { .number = 11, .start = start, .end = end, .spare = spare });
    nearest_altered_refused(name, four_levels(), given_jobs(), p, 0,
        (struct ramyearly_nearest_answer) { .number = 11, .start = start, .end = end, .spare = spare });
}

/* Each of the three makes a set overfull that fits without it. */
static void overfull(void)
{
    /* 10 cycles, and 8 in 4 ticks. */
    overfull_is("overfull by the highest level", (struct parameters) { 2, 2, 20 }, 0, 4, -2);
    overfull_is("far overfull by the highest level", (struct parameters) { 1, 2, 20 }, 0, 3, -1);
    /* 34 percent make the second job 3 and 1.02, rounded up: 5 cycles in a tick of 4. With 33 they are 4, and the first has 7: 3 cycles of
     * band 1 and 3 of band 2 beside the top, and one of band 3. */
    overfull_is("overfull by the margin", (struct parameters) { 3, 2, 34 }, 2, 3, -1);
    plan_altered_is("a percent less", four_levels(), given_jobs(), marks_at(""), (struct parameters) { 3, 2, 33 }, PLAN, PRICES, SHARES,
        (struct ramyearly_plan_answer) { .intervals = 3, .steps = 3, .energy = 4 * 100 + 4 * 700 + 3 * 850 });
    /* 5 cycles in 2 ticks fit. */
    plan_altered_is("a free tick less", four_levels(), given_jobs(), marks_at(""), (struct parameters) { 3, 1, 34 }, 0, 0, 0,
        (struct ramyearly_plan_answer) { .number = 12, .place = PLAN });
}

/* A mark at 4 is a bound up to the deadline 6, and none up to the altered one. It makes 4 intervals and 6 open pairs: for 2 jobs a plan
 * buffer of 4 + 6 x 5 bytes is wanted. */
static void marks_and_free_ticks(void)
{
    struct bytes four = four_levels(), jobs = given_jobs(), mark = marks_at("4");
    struct parameters none_free = { 3, 0, 20 };
    plan_altered_is("a mark before the deadline", four, jobs, mark, none_free, 33, 22, 8,
        (struct ramyearly_plan_answer) { .number = 12, .place = 34 });
    fits_altered_is("a mark before the deadline", four, jobs, mark, none_free, altered_plan(), (struct ramyearly_fits_answer) { .number = 16 });
    touching_altered_refused("a mark before the deadline", jobs, mark, none_free, altered_plan(), 4, 6, LONG, 16, 0);
    fits_altered_is("a mark at the altered deadline", four, jobs, mark, PARAMETERS, altered_plan(),
        (struct ramyearly_fits_answer) { .energy = ENERGY });
    fits_altered_is("a mark before the altered deadline", four, jobs, marks_at("1"), PARAMETERS, altered_plan(),
        (struct ramyearly_fits_answer) { .number = 16 });
}

/* By the deadlines and cycles that are altered: with no free ticks the bounds are 0, 2, 5 and 6. */
static void touched(void)
{
    struct bytes jobs = given_jobs(), none = marks_at(""), plan = altered_plan();
    struct touched late = { list_of("0 1"), list_of(""), list_of("65 128"), 5 }, one_less = { list_of("0"), list_of(""), list_of("128"), 4 };
    touching_altered_is("a span without free ticks", jobs, none, (struct parameters) { 0, 0, 20 }, plan, 4, 6, LONG, &late);
    touching_altered_is("a span with a free tick", jobs, none, (struct parameters) { 0, 1, 20 }, plan, 4, 6, LONG, &one_less);
    touching_altered_refused("a span without a margin", jobs, none, (struct parameters) { 0, 2, 0 }, plan, 4, 6, LONG, 18, 1);
    touching_altered_is("a span and any highest level", jobs, none, (struct parameters) { UINT32_MAX, 1, 20 }, plan, 4, 6, LONG, &one_less);
}

/* A board with a highest level of its own, and the figure of the plan there. */
static void accepted_on(const char *name, struct bytes levels, uint32_t highest, uint64_t energy)
{
    struct parameters p = { highest, 2, 20 };
    struct bytes jobs = given_jobs(), none = marks_at(""), plan = altered_plan(), prices = altered_prices();
    struct ramyearly_plan_answer planned = { .intervals = INTERVALS, .steps = 3, .energy = energy };
    check_altered_is(name, levels, jobs, none, p, backwards(), prices, (struct ramyearly_check_answer) { .energy = energy });
    order_altered_is(name, levels, jobs, none, p, backwards(), prices, 22, (struct ramyearly_order_answer) { .length = 22 }, plan);
    written_is(name, plan_altered_is(name, levels, jobs, none, p, PLAN, PRICES, SHARES, planned), plan, prices, shares, SHARES);
}

/* The working frequencies of the altered tables are 1, 2 and 4. */
static void boards_of_type(void)
{
    struct bytes draw = table(2, 5, (const uint32_t[]) { 0, 1, 2, 4, 20, 9, 100, 200, 250, 250 }, 10);
    struct bytes dropped = table(2, 5, (const uint32_t[]) { 1, 2, 3, 4, 20, 10, 20, 25, 25, 25 }, 10);
    accepted_on("a board", four_levels(), 3, ENERGY);
    /* Powers 144, 882 and 2,704: 4 x 144 + 4 x 738 + 2 x 911. */
    accepted_on("other voltages", table(2, 4, (const uint32_t[]) { 1, 2, 4, 5, 12, 21, 26, 26 }, 8), 3, 5350);
    /* The draw is paid up to the altered deadline: 4 x 9,000 + 4 x 1,000 + 4 x 70,000 + 2 x 85,000. */
    accepted_on("an idle draw", draw, 3, 490000);
    /* 3 at 25 has power 1,875, above the middle of 800 and 2,500. */
    accepted_on("a dropped level", dropped, 4, ENERGY);
    accepted_on("no level above", three_levels(), 3, ENERGY);
}

/* A task of 75 cycles every 5 ticks, by 4: with 2 free ticks and 100 percent a job 0 2 150, and a job 5 7 150 where the round comes again.
 * Idling draws 9,000, and 100 at 10 has price 10: 2 x (1,500 + 18,000) and 3 x 9,000 between the two. */
static void rounds_altered(void)
{
    struct bytes levels = table(2, 4, (const uint32_t[]) { 0, 100, 200, 300, 9, 10, 10, 10 }, 8);
    struct bytes round = table(4, 1, (const uint32_t[]) { 0, 4, 75 }, 3), twice = table(4, 2, (const uint32_t[]) { 0, 4, 5, 9, 75, 75 }, 6);
    struct parameters p = { 1, 2, 100 };
    rounds_is("a round", table(4, 1, (const uint32_t[]) { 0, 5, 4, 75 }, 4), 14,
        (struct ramyearly_rounds_answer) { .length = 14, .multiple = 5 }, round);
    plan_altered_is("a round with parameters", levels, round, marks_at(""), p, 10, 7, 1,
        (struct ramyearly_plan_answer) { .intervals = 1, .steps = 1, .energy = 19500 });
    plan_altered_is("two rounds with parameters", levels, twice, marks_at(""), p, 16, 17, 6,
        (struct ramyearly_plan_answer) { .intervals = 3, .steps = 2, .energy = 66000 });
}

void parameters(void)
{
    same_as_by_hand();
    other_parameters();
    all_levels();
    settings();
    spares();
    margins();
    overfull();
    marks_and_free_ticks();
    touched();
    boards_of_type();
    rounds_altered();
}
