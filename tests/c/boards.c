/* The cases of one plan on many boards: level tables with the same working frequencies, other voltages and idle draws. */
#include "support.h"

/* Jobs 0 12 16, 4 6 18, 8 10 10 and 13 16 7. Bounds 0, 4, 6, 8, 10, 12, 13, 16; no job is open from 12 to 13. */
static struct bytes four_jobs(void)
{
    return table(4, 4, (const uint32_t[]) { 0, 12, 4, 6, 8, 10, 13, 16, 16, 18, 10, 7 }, 12);
}

/* The first job is open in 5 intervals and each other job in one: 8 pairs, fewer than 4 jobs + 7 intervals - 1. */
enum { STEPS = 6, INTERVALS = 7, PLAN = 4 + 6 * 8, PRICES = 2 + 5 * INTERVALS, SHARES = 4 * INTERVALS };

/* With the working frequencies 2, 5 and 9, gaps 2, 3 and 4, the second job fills its 2 ticks to the top, the third fills band 2 in its
 * own, and the first fills band 1 in the 4, 2 and 2 ticks that are left of its window. The fourth takes 6 cycles of band 1 and 1 of
 * band 2 in its 3 ticks. No other plan needs as little, whatever the voltages: prices rise. */
static const uint32_t steps[STEPS][3] = { { 0, 0, 8 }, { 1, 1, 18 }, { 2, 0, 4 }, { 3, 2, 10 }, { 4, 0, 4 }, { 6, 3, 7 } };
static const uint32_t shares[SHARES] = { 8, 0, 0, 0, 0, 18, 0, 0, 4, 0, 0, 0, 0, 0, 10, 0, 4, 0, 0, 0, 0, 0, 0, 0, 0, 0, 0, 7 };

static struct bytes one_plan(void)
{
    return plan_of(INTERVALS, STEPS, steps);
}

/* The plan with one step changed. */
static struct bytes plan_with(unsigned step, uint32_t interval, uint32_t job, uint32_t cycles)
{
    uint32_t changed[STEPS][3];
    for (unsigned s = 0; s < STEPS; s++)
        for (unsigned i = 0; i < 3; i++)
            changed[s][i] = s == step ? (const uint32_t[]) { interval, job, cycles }[i] : steps[s][i];
    return plan_of(INTERVALS, STEPS, (const uint32_t(*)[3])changed);
}

/* One digit for each price. */
static struct bytes prices_at(const char *digits)
{
    uint8_t prices[INTERVALS];
    for (unsigned i = 0; i < INTERVALS; i++)
        prices[i] = (uint8_t)(digits[i] - '0');
    return prices_of(INTERVALS, (const uint32_t[]) { 4, 6, 8, 10, 12, 13, 16 }, prices);
}

/* The loads 8, 4 and 4 of the first job end band 1, and 10 ends band 2. The top wants 3, load 0 wants 1, and 7 in 3 ticks wants 2. */
static const char SMALLEST[] = "1312112", LARGEST[] = "2323212";

/* A level table, frequencies before voltages, and the energy figure of the plan: the idle draw over 16 ticks; in band 1 the 8, 4, 4, 4, 4
 * and 6 cycles that are 30, in band 2 the 6, 6 and 1 that are 13, and in band 3 the 8 up to the top. */
struct board {
    const char *name;
    unsigned entries;
    uint32_t numbers[16];
    uint64_t energy;
};

static const struct board boards_of_type[] = {
    /* Powers 200, 2,000 and 8,100: 30 x 200 / 2 + 13 x 1,800 / 3 + 8 x 6,100 / 4 is 3,000 + 7,800 + 12,200. */
    { "a board", 3, { 2, 5, 9, 10, 20, 30 }, 23000 },
    /* Powers 288, 1,280 and 3,969: 30 x 288 / 2 + 13 x 992 / 3 + 8 x 2,689 / 4 is 4,320 + 4,298 2/3 + 5,378; rounded down by band. */
    { "other voltages", 3, { 2, 5, 9, 12, 16, 21 }, 13996 },
    /* Powers 1,800, 8,000 and 22,500: 30 x 1,800 / 2 + 13 x 6,200 / 3 + 8 x 14,500 / 4 is 27,000 + 26,866 2/3 + 29,000. */
    { "higher voltages", 3, { 2, 5, 9, 30, 40, 50 }, 82866 },
    { "an idle entry without a draw", 4, { 0, 2, 5, 9, 0, 30, 40, 50 }, 82866 },
    /* Idling draws 1,000: 16 x 1,000 + 30 x 800 / 2 in place of 27,000. */
    { "an idle draw", 4, { 0, 2, 5, 9, 1, 30, 40, 50 }, 83866 },
    /* Powers 20,000, 450,000 and 2,250,000, and idling draws 19,000: 16 x 19,000 + 30 x 1,000 / 2 + 13 x 430,000 / 3 + 8 x 1,800,000 / 4 is
     * 304,000 + 15,000 + 1,863,333 1/3 + 3,600,000. */
    { "the highest voltage and a draw", 4, { 0, 2, 5, 9, 19, 100, 300, 500 }, 5782333 },
    /* 7 at 25 has power 4,375, above the middle of 2,000 and 5,625: 3,000 + 7,800 + 8 x 3,625 / 4. */
    { "a further level, dropped", 4, { 2, 5, 7, 9, 10, 20, 25, 25 }, 18050 },
    { "the dropped level left out", 3, { 2, 5, 9, 10, 20, 25 }, 18050 },
    /* 1 at 10 has power 100, the middle of 0 and 200, and is dropped. The working levels are those of the first board. */
    { "a dropped level before all others", 4, { 1, 2, 5, 9, 10, 10, 20, 30 }, 23000 },
    /* 3 and 4 at 20 have powers 1,200 and 1,600, above 800 and 1,400, and 7 at 30 has 6,300, above 5,050. */
    { "eight entries", 8, { 0, 1, 2, 3, 4, 5, 7, 9, 0, 10, 10, 20, 20, 20, 30, 30 }, 23000 },
    /* The powers of the first board with 1 dropped, each 100 times as high. */
    { "ten times the voltage", 4, { 1, 2, 5, 9, 100, 100, 200, 300 }, 2300000 },
    /* Powers 20,000, 200,000 and 810,000, and idling draws 9,000: 16 x 9,000 + 30 x 11,000 / 2 + 780,000 + 1,220,000. */
    { "ten times the voltage and a draw", 4, { 0, 2, 5, 9, 9, 100, 200, 300 }, 2309000 },
};

enum { BOARDS = sizeof boards_of_type / sizeof *boards_of_type };

static struct bytes levels_of(const struct board *board)
{
    return table(2, board->entries, board->numbers, 2 * board->entries);
}

/* The plan is accepted with all prices that fit its loads, comes out in order, and is what planning writes: each with the same bytes, and
 * with the board's own figure. */
static void is_least_on(const struct board *board)
{
    static const uint32_t mixed[STEPS][3] = { { 6, 3, 7 }, { 2, 0, 4 }, { 3, 2, 10 }, { 0, 0, 8 }, { 4, 0, 4 }, { 1, 1, 18 } };
    struct bytes levels = levels_of(board), jobs = four_jobs(), plan = one_plan();
    struct ramyearly_check_answer accepted = { .energy = board->energy };
    struct ramyearly_order_answer ordered = { .length = 4 + 6 * STEPS };
    struct ramyearly_plan_answer planned = { .intervals = INTERVALS, .steps = STEPS, .energy = board->energy };
    check_is(board->name, levels, jobs, plan, prices_at(SMALLEST), accepted);
    check_is(board->name, levels, jobs, plan, prices_at(LARGEST), accepted);
    fits_is(board->name, levels, jobs, plan, (struct ramyearly_fits_answer) { .energy = board->energy });
    check_is(board->name, levels, jobs, plan_of(INTERVALS, STEPS, mixed), prices_at(SMALLEST), accepted);
    order_is(board->name, levels, jobs, plan_of(INTERVALS, STEPS, mixed), prices_at(LARGEST), plan.length, ordered, plan);
    written_is(board->name, plan_is(board->name, levels, jobs, PLAN, PRICES, SHARES, planned), plan, prices_at(SMALLEST), shares, SHARES);
}

/* A mark at 2 cuts the first interval into two with 4 cycles each, which changes no figure. */
static void is_least_with_a_mark(const struct board *board)
{
    static const uint32_t cut_steps[][3] = { { 0, 0, 4 }, { 1, 0, 4 }, { 2, 1, 18 }, { 3, 0, 4 }, { 4, 2, 10 }, { 5, 0, 4 }, { 7, 3, 7 } };
    static const uint32_t cut_shares[] = { 4, 0, 0, 0, 4, 0, 0, 0, 0, 18, 0, 0, 4, 0, 0, 0, 0, 0, 10, 0, 4, 0, 0, 0, 0, 0, 0, 0, 0, 0, 0, 7 };
    struct bytes levels = levels_of(board), jobs = four_jobs(), mark = marks_at("2"), plan = plan_of(8, 7, cut_steps);
    struct bytes prices = prices_of(8, (const uint32_t[]) { 2, 4, 6, 8, 10, 12, 13, 16 }, (const uint8_t[]) { 1, 1, 3, 1, 2, 1, 1, 2 });
    struct ramyearly_plan_answer planned = { .intervals = 8, .steps = 7, .energy = board->energy };
    check_marked_is(board->name, levels, jobs, mark, plan, prices, (struct ramyearly_check_answer) { .energy = board->energy });
    check_marked_is(board->name, levels, jobs, mark, one_plan(), prices_at(SMALLEST), (struct ramyearly_check_answer) { .number = 16 });
    written_is(board->name, plan_marked_is(board->name, levels, jobs, mark, PLAN + 6, PRICES + 5, SHARES + 4, planned), plan, prices, cut_shares,
        SHARES + 4);
}

/* Without jobs nothing is paid, with a draw or without. */
static void no_jobs(const struct board *board)
{
    struct bytes levels = levels_of(board), jobs = table(4, 0, NULL, 0), plan = plan_of(0, 0, NULL), prices = prices_of(0, NULL, NULL);
    check_is(board->name, levels, jobs, plan, prices, (struct ramyearly_check_answer) { .energy = 0 });
    written_is(board->name, plan_is(board->name, levels, jobs, 4, 2, 0, (struct ramyearly_plan_answer) { .number = 0 }), plan, prices, shares, 0);
}

/* By the check and by the order, on every board of the type. */
static void refused(struct bytes plan, struct bytes prices, uint32_t number, uint32_t place)
{
    for (unsigned b = 0; b < BOARDS; b++) {
        struct bytes levels = levels_of(&boards_of_type[b]), jobs = four_jobs();
        const char *name = boards_of_type[b].name;
        check_is(name, levels, jobs, plan, prices, (struct ramyearly_check_answer) { .number = number, .place = place });
        order_refused(name, levels, jobs, plan, prices, plan.length, number, place);
    }
}

/* With a price list that is damaged too, and named only after the plan. */
static void plans_refused(void)
{
    /* The top gives 18 cycles in 2 ticks. */
    static const uint32_t past_the_top[][3] = { { 0, 0, 8 }, { 1, 1, 18 }, { 1, 0, 1 }, { 2, 0, 3 }, { 3, 2, 10 }, { 4, 0, 4 }, { 6, 3, 7 } };
    struct bytes damaged = cut(prices_at(SMALLEST));
    refused(cut(one_plan()), damaged, 15, 0);
    refused(extended(one_plan()), damaged, 15, 0);
    refused(plan_of(INTERVALS - 1, STEPS, steps), damaged, 16, 0);
    refused(plan_with(4, 5, 0, 4), damaged, 17, 4);
    refused(plan_with(4, 2, 0, 4), damaged, 17, 4);
    refused(plan_with(3, 3, 2, 0), damaged, 18, 3);
    refused(plan_with(3, 3, 2, 11), damaged, 18, 3);
    refused(plan_with(5, 6, 3, 6), damaged, 19, 3);
    refused(plan_with(4, 4, 0, 5), damaged, 19, 0);
    refused(plan_of(INTERVALS, 7, past_the_top), damaged, 20, 1);
}

static void lists_refused(void)
{
    struct bytes plan = one_plan(), another_end = prices_at(SMALLEST);
    another_end.at[2 + 4 * 2]++;
    refused(plan, (struct bytes) { .length = 0 }, 21, 0);
    refused(plan, cut(prices_at(SMALLEST)), 21, 0);
    refused(plan, another_end, 22, 2);
    refused(plan, prices_at("1312102"), 22, 5);
    refused(plan, prices_at("1312114"), 22, 6);
    refused(plan, prices_at("1412112"), 22, 1);
    /* The idle interval, the top, the end of band 1, the end of band 2, and inside band 2. */
    refused(plan, prices_at("1312122"), 23, 5);
    refused(plan, prices_at("1212112"), 23, 1);
    refused(plan, prices_at("1332112"), 23, 2);
    refused(plan, prices_at("1311112"), 23, 3);
    refused(plan, prices_at("1312111"), 23, 6);
    refused(plan, prices_at("1312113"), 23, 6);
    /* The first job's three intervals at two prices. */
    refused(plan, prices_at("2312112"), 24, 0);
    refused(plan, prices_at("1312212"), 24, 4);
    refused(plan, prices_at("1322212"), 24, 2);
}

/* A plan that serves all jobs but has not least energy: a cycle of the first job in band 3 from 8 to 10, and one less after it. */
static void dearer_plan_refused(void)
{
    static const uint32_t dearer[][3] = { { 0, 0, 8 }, { 1, 1, 18 }, { 2, 0, 4 }, { 3, 2, 10 }, { 3, 0, 1 }, { 4, 0, 3 }, { 6, 3, 7 } };
    struct bytes plan = plan_of(INTERVALS, 7, dearer);
    refused(plan, prices_at("1312112"), 23, 3);
    refused(plan, prices_at("1313112"), 24, 4);
    refused(plan, prices_at("2323212"), 23, 4);
}

static void settings_are(uint32_t length, uint64_t load, struct ramyearly_setting_answer wanted)
{
    for (unsigned b = 0; b < BOARDS; b++)
        setting_is(boards_of_type[b].name, levels_of(&boards_of_type[b]), length, load, wanted);
}

static void settings(void)
{
    settings_are(2, 18, (struct ramyearly_setting_answer) { .band = 3, .extra = 8, .gap = 4 });
    settings_are(2, 11, (struct ramyearly_setting_answer) { .band = 3, .extra = 1, .gap = 4 });
    settings_are(2, 10, (struct ramyearly_setting_answer) { .band = 2, .extra = 6, .gap = 3 });
    settings_are(3, 7, (struct ramyearly_setting_answer) { .band = 2, .extra = 1, .gap = 3 });
    settings_are(4, 8, (struct ramyearly_setting_answer) { .band = 1, .extra = 8, .gap = 2 });
    settings_are(1, 1, (struct ramyearly_setting_answer) { .band = 1, .extra = 1, .gap = 2 });
    settings_are(1, 0, (struct ramyearly_setting_answer) { .number = 0 });
    settings_are(0, 1, (struct ramyearly_setting_answer) { .number = 25 });
    settings_are(2, 19, (struct ramyearly_setting_answer) { .number = 26 });
}

static void spares_are(uint32_t start, uint32_t end, struct ramyearly_spare_answer wanted)
{
    for (unsigned b = 0; b < BOARDS; b++)
        spare_is(boards_of_type[b].name, levels_of(&boards_of_type[b]), four_jobs(), start, end, wanted);
}

static void spares(void)
{
    spares_are(4, 6, (struct ramyearly_spare_answer) { .spare = 0 });
    /* 12 x 9 - 16 - 18 - 10. */
    spares_are(0, 12, (struct ramyearly_spare_answer) { .spare = 64 });
    spares_are(6, 6, (struct ramyearly_spare_answer) { .number = 27 });
}

/* The windows with the least spare: 12 x 9 - 16 - 18 - 10 for the first job, and for each other job its own. */
static void most_cycles(void)
{
    const struct list most = list_of("1 0 2 8 3 20 0 64");
    for (unsigned b = 0; b < BOARDS; b++) {
        struct bytes levels = levels_of(&boards_of_type[b]), jobs = four_jobs();
        nearest_is(boards_of_type[b].name, levels, jobs, 8, &most);
        nearest_refused(boards_of_type[b].name, levels, jobs, 7, (struct ramyearly_nearest_answer) { .number = 14, .place = 8 });
    }
}

static void plannings_refused(struct bytes jobs, size_t plan_length, size_t prices_length, size_t shares_length, struct ramyearly_plan_answer wanted)
{
    for (unsigned b = 0; b < BOARDS; b++)
        plan_is(boards_of_type[b].name, levels_of(&boards_of_type[b]), jobs, plan_length, prices_length, shares_length, wanted);
}

/* By planning and by nearest. */
static void overfull_is(struct bytes jobs, uint32_t start, uint32_t end, int64_t spare)
{
    plannings_refused(jobs, PLAN, PRICES, SHARES, (struct ramyearly_plan_answer) { .number = 11, .start = start, .end = end, .spare = spare });
    plannings_refused(jobs, 0, 0, 0, (struct ramyearly_plan_answer) { .number = 11, .start = start, .end = end, .spare = spare });
    for (unsigned b = 0; b < BOARDS; b++)
        nearest_refused(boards_of_type[b].name, levels_of(&boards_of_type[b]), jobs, 0,
            (struct ramyearly_nearest_answer) { .number = 11, .start = start, .end = end, .spare = spare });
}

static void plannings(void)
{
    /* The second job with one cycle more than the top gives; and the first job with 160 cycles: 12 x 9 - 160 - 18 - 10. */
    struct bytes overfull = table(4, 4, (const uint32_t[]) { 0, 12, 4, 6, 8, 10, 13, 16, 16, 19, 10, 7 }, 12);
    struct bytes far_overfull = table(4, 4, (const uint32_t[]) { 0, 12, 4, 6, 8, 10, 13, 16, 160, 18, 10, 7 }, 12);
    overfull_is(overfull, 4, 6, -1);
    overfull_is(far_overfull, 0, 12, -80);
    plannings_refused(four_jobs(), PLAN - 1, PRICES, SHARES, (struct ramyearly_plan_answer) { .number = 12, .place = PLAN });
    plannings_refused(four_jobs(), PLAN, PRICES - 1, SHARES, (struct ramyearly_plan_answer) { .number = 13, .place = PRICES });
    plannings_refused(four_jobs(), PLAN, PRICES, SHARES - 1, (struct ramyearly_plan_answer) { .number = 14, .place = SHARES });
}

static void other_type_is(const char *name, struct bytes levels, const char *prices, struct ramyearly_check_answer wanted)
{
    check_is(name, levels, four_jobs(), one_plan(), prices_at(prices), wanted);
}

/* Boards with other working frequencies, though the given ones may be the same. */
static void other_types(void)
{
    struct bytes middle_dropped = table(2, 3, (const uint32_t[]) { 2, 5, 9, 10, 29, 30 }, 6);
    struct bytes one_works = table(2, 3, (const uint32_t[]) { 2, 5, 9, 20, 20, 20 }, 6);
    struct bytes slow_top = table(2, 3, (const uint32_t[]) { 2, 5, 8, 10, 20, 30 }, 6);
    struct bytes one_more = table(2, 4, (const uint32_t[]) { 2, 5, 7, 9, 10, 20, 25, 30 }, 8);
    struct bytes one_more_by_draw = table(2, 5, (const uint32_t[]) { 0, 1, 2, 5, 9, 9, 100, 100, 200, 300 }, 10);
    /* 5 at 29 has power 4,205, above 200 + 7,900 x 3 / 7. The bands end at 2 and 9, and the top wants 2: 30 x 100 + 21 x 7,900 / 7. */
    other_type_is("the middle level is dropped", middle_dropped, SMALLEST, (struct ramyearly_check_answer) { .number = 22, .place = 1 });
    other_type_is("its own prices", middle_dropped, "1212112", (struct ramyearly_check_answer) { .energy = 26700 });
    refused(one_plan(), prices_at("1212112"), 23, 1);
    /* All three have the power of 400 a cycle, so that the lower two are dropped: 51 x 400. */
    other_type_is("only the top works", one_works, SMALLEST, (struct ramyearly_check_answer) { .number = 22, .place = 1 });
    other_type_is("its own prices", one_works, "1111111", (struct ramyearly_check_answer) { .energy = 20400 });
    refused(one_plan(), prices_at("1111111"), 23, 1);
    other_type_is("a slower top", slow_top, SMALLEST, (struct ramyearly_check_answer) { .number = 20, .place = 1 });
    /* 7 at 25 has power 4,375, below the middle of 2,000 and 8,100: the top wants 4. */
    other_type_is("one more works", one_more, SMALLEST, (struct ramyearly_check_answer) { .number = 23, .place = 1 });
    /* 1 at 100 is dropped without a draw. With 9,000 its price is 1,000 / 1, below 10,000 / 1, so that load 8 in 4 ticks ends band 2. */
    other_type_is("one more works by the draw", one_more_by_draw, SMALLEST, (struct ramyearly_check_answer) { .number = 23, .place = 0 });
}

void boards(void)
{
    for (unsigned b = 0; b < BOARDS; b++) {
        is_least_on(&boards_of_type[b]);
        is_least_with_a_mark(&boards_of_type[b]);
        no_jobs(&boards_of_type[b]);
    }
    plans_refused();
    lists_refused();
    dearer_plan_refused();
    settings();
    spares();
    most_cycles();
    plannings();
    other_types();
}
