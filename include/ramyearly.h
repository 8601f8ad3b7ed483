/* Ramyearly: planning and checking clock plans, for the reader's kernel and for the hosts that plan its sites.
 *
 * Every function takes byte tables as a pointer and a length in bytes, of any content and length, and numbers of any
 * value. It returns the answer by value, reads nothing but the bytes it is lent and always returns. Only planning, rounds,
 * ordering, touching and nearest write, and only into the buffers and lists they are lent. A pointer must be valid for its length;
 * with length 0 it must still not be null, and it must be aligned for its type. Buffers and lists must not overlap each other or
 * the tables.
 *
 * number is 0 for an answer, and otherwise the number of the refusal, with its place (0 where none is named); README.md
 * lists them. Fields that a case does not fill are 0.
 *
 * A level table may begin with an idle entry: frequency 0, and in its voltage place the idle draw in thousands of power
 * units, which must be below the power of the level after it. It is one of the 1 to 8 entries, but no level. Without it
 * idling draws 0. A plan, and every schedule it is compared with, pays for idling from earliest release to latest deadline.
 *
 * A mark table has the number of handover marks as 16 bits, at most 8, then their ticks, 32 bits each, of any size and strictly
 * rising. A mark strictly between earliest release and latest deadline is a bound of intervals, as releases and deadlines are; any
 * other has no effect, nor has one on a bound that is there without it, or beside an empty job table. No marks are the two bytes
 * 0 0. Any other table, also one of no bytes, gives 34 with place 0, after the refusals of the job table. A plan and its price list
 * go with the marks that they were made for: with other bounds the check refuses them. The least exact energy, which a plan that is
 * written or accepted has, is what it is without marks.
 *
 * Three numbers, the site parameters, come with each site; each function takes those that bear on the tables it is lent. They alter
 * the tables after these are read, and the function then works on the altered tables:
 *   highest     the highest running level allowed, 1 to the number of running levels, which is that of the entries without the idle
 *               entry: the first `highest` running levels stay, and so does the idle entry
 *   free_ticks  the ticks kept free before each deadline, 0 to 1,000,000: every deadline is earlier by them
 *   margin      the margin on cycles in percent, 0 to 100: each job has margin x cycles / 100 more, rounded up, job by job
 * Releases and marks are not altered; a mark strictly between earliest release and latest altered deadline is a bound. A parameter out
 * of its range, whether or not it would alter anything, gives 35 with place 0, right after the refusals of the tables and before all
 * others but 33 of ramyearly_touching, which stays first. Then 36 names the first job, its place, whose window is emptied, its altered
 * deadline not after its release, or whose altered cycles are above 1,000,000,000. All running levels with 0 and 0 alter nothing. What
 * this header says of levels, of the top and the working frequencies, of jobs with their deadlines and cycles, of intervals, and of every
 * schedule that a plan is compared with is said of the altered tables. A plan and its price list go with the parameters that they were
 * made for, as they do with the marks.
 *
 * No function uses a heap or writable static data. The deepest stack that was measured, on x86-64, is 14 kB for ordering, 12 kB
 * for checking, 11 kB for planning and for whether a plan fits, 8 kB for nearest, 6 kB for touching, 3 kB for the spare, and 2 kB for
 * the setting and for rounds (docs/BENCHMARK.md). */
#ifndef RAMYEARLY_H
#define RAMYEARLY_H

#include <stddef.h>
#include <stdint.h>

#ifdef __cplusplus
extern "C" {
#endif

struct ramyearly_fits_answer {
    uint32_t number, place;
    uint64_t energy;
};

struct ramyearly_check_answer {
    uint32_t number, place;
    uint64_t energy;
};

struct ramyearly_setting_answer {
    uint32_t number, place, band, gap;
    uint64_t extra;
};

struct ramyearly_spare_answer {
    uint32_t number, place;
    int64_t spare;
};

struct ramyearly_plan_answer {
    uint32_t number, place, intervals, steps;
    uint64_t energy;
    uint32_t start, end;
    int64_t spare;
};

struct ramyearly_rounds_answer {
    uint32_t number, place, length, multiple;
};

struct ramyearly_order_answer {
    uint32_t number, place, length;
};

struct ramyearly_touching_answer {
    uint32_t number, place, open, inside, steps, deadline;
};

struct ramyearly_nearest_answer {
    uint32_t number, place, start, end;
    int64_t spare;
    uint64_t length;
};

/* Whether a plan fits, for the bench that makes plans by hand: no prices are lent. Number 0: it gives each job exactly its cycles
 * between release and deadline, and loads no interval past its length x top frequency. Carried out, it then meets all deadlines,
 * and energy is its energy figure. That no schedule needs less is not said here: prices show it, and of the two only
 * ramyearly_check, which is lent them, promises it. Otherwise refusals 1 to 10, 31, 32, 34, 35, 36, and then 15 to 20, in the order
 * and with the places of ramyearly_check. */
struct ramyearly_fits_answer ramyearly_fits(
    const uint8_t *levels, size_t levels_length,
    const uint8_t *jobs, size_t jobs_length,
    const uint8_t *marks, size_t marks_length,
    uint32_t highest, uint32_t free_ticks, uint32_t margin,
    const uint8_t *plan, size_t plan_length);

/* Accepts a plan and its price list exactly when the plan gives each job its cycles between release and deadline and the prices
 * fit, and answers the energy figure. Refusals 1 to 10, 31, 32, 34, 35, 36, and then 15 to 24. It runs ramyearly_fits first: what that
 * refuses has the same number and place here, whatever the prices, and a plan that fits meets one of 21 to 24 or is accepted with
 * the same energy. No schedule over the levels allowed that meets all deadlines has less than an accepted plan's exact energy. Of the
 * levels only the working frequencies, those of the altered table, decide what is accepted: with every level table and highest level
 * that have the same ones, whatever the voltages, the idle draw, the levels that are dropped and those above the highest, the same
 * plans are accepted with the same prices for the same jobs, marks, free ticks and margin, each with that table's own figure, or
 * refused with the same number and place. So one plan and one price list serve all such boards, each with a highest level of its own,
 * and ramyearly_setting, ramyearly_spare and ramyearly_nearest answer the same for them. */
struct ramyearly_check_answer ramyearly_check(
    const uint8_t *levels, size_t levels_length,
    const uint8_t *jobs, size_t jobs_length,
    const uint8_t *marks, size_t marks_length,
    uint32_t highest, uint32_t free_ticks, uint32_t margin,
    const uint8_t *plan, size_t plan_length,
    const uint8_t *prices, size_t prices_length);

/* The setting of one interval: the clock stays extra / gap ticks on working level `band`, first, and the remaining time
 * on the one below; zeros for load 0. The length and the load are taken as they are: of the parameters only the highest level bears
 * on a level table. Refusals 1 to 5, 31, 32, 35, then 25 and 26. */
struct ramyearly_setting_answer ramyearly_setting(
    const uint8_t *levels, size_t levels_length,
    uint32_t highest, uint32_t length, uint64_t load);

/* The spare of a window: length x top frequency less the cycles of the jobs inside; negative where the window is
 * overfull. The window is taken as it is: free ticks make the jobs' deadlines earlier, and not its end. Refusals 1 to 10, 31, 32, 35,
 * 36, then 27. */
struct ramyearly_spare_answer ramyearly_spare(
    const uint8_t *levels, size_t levels_length,
    const uint8_t *jobs, size_t jobs_length,
    uint32_t highest, uint32_t free_ticks, uint32_t margin,
    uint32_t start, uint32_t end);

/* Plans a site. Number 0: the first 4 + 6 x steps bytes of the plan buffer, 2 + 5 x intervals bytes of the price buffer and
 * jobs x intervals shares (that job's cycles at interval x jobs + job) are written, the rest stays; ramyearly_check
 * accepts exactly those bytes with the same marks and parameters and answers the same energy. No schedule over the levels allowed
 * that meets all deadlines has less than the plan's exact energy. Number 11: start and end are the earliest overfull window, with its
 * spare, and no schedule meets all deadlines; it is the same window whatever the marks. Otherwise refusals 1 to 10, 31, 32, 34, 35 and
 * 36 before 11, and 12 to 14 after it, whose places are the lengths wanted, 14 counting 32-bit numbers. Where no plan comes out
 * the buffers stay as they were.
 * A plan is short: with at least one job it has at most jobs + intervals - 1 steps, and without jobs none. It pays no energy for that.
 * 12 wants 4 + 6 x the smaller of that number and the pairs of a job and an interval where it is open, and 4 bytes without jobs; 13 wants
 * 2 + 5 x intervals, and 14 jobs x intervals. There are at most 135 intervals, and so 198 steps: 1,192 bytes, 677 bytes and 8,640 numbers
 * are always enough. */
struct ramyearly_plan_answer ramyearly_plan(
    const uint8_t *levels, size_t levels_length,
    const uint8_t *jobs, size_t jobs_length,
    const uint8_t *marks, size_t marks_length,
    uint32_t highest, uint32_t free_ticks, uint32_t margin,
    uint8_t *plan, size_t plan_length,
    uint8_t *prices, size_t prices_length,
    uint32_t *shares, size_t shares_length);

/* Lays out the jobs of tasks over one round, `multiple` ticks: the least common multiple of their periods, 1 for no tasks.
 * A task table has the number of tasks as 16 bits, phase and period of each, then deadline and cycles of each, 32 bits
 * each. A task releases a job of its cycles at phase + k x period for every k where that is before `multiple`; the job's
 * deadline is that release + the task's deadline. Number 0: the first `length` bytes of the job buffer are written, the
 * rest stays; they are a job table, which meets none of refusals 6 to 10, of exactly these jobs by release, then task
 * number. No parameters are taken here, and no job is altered. A plan that ramyearly_plan writes or ramyearly_check accepts for it,
 * with any marks in the round and any parameters, can be repeated every `multiple` ticks, any number of times: it then gives each
 * repeated job, altered as those of the round are, its cycles between release and deadline, and no schedule over the levels allowed
 * that meets all deadlines has less than its exact energy. Both pay for idling between the rounds too. Otherwise refusals 28 to 30,
 * then 12, whose place is the length wanted, and the buffer stays as it was. */
struct ramyearly_rounds_answer ramyearly_rounds(
    const uint8_t *tasks, size_t tasks_length,
    uint8_t *jobs, size_t jobs_length);

/* Writes an accepted plan with its steps in cell order: interval by interval, within one by job number. Number 0: the first
 * `length` bytes of the buffer are written, as many as the plan has, and the rest stays; they have the plan's number of
 * intervals and its steps, each step with its own cycles, and ramyearly_check accepts them with the same levels, jobs, marks,
 * parameters and prices and answers the same energy. A plan that is already in order comes out unchanged. Two accepted plans for one
 * job table and the same marks, free ticks and margin come out equal, byte for byte, exactly when every job has the same cycles in
 * every interval; their levels, highest levels and prices may differ. Otherwise the refusals of ramyearly_check, 1 to 10, 31, 32, 34,
 * 35, 36 and 15 to 24, then 12, whose place is the plan's length, and the buffer stays as it was. The buffer must not overlap the
 * plan: nothing is ordered in place. */
struct ramyearly_order_answer ramyearly_order(
    const uint8_t *levels, size_t levels_length,
    const uint8_t *jobs, size_t jobs_length,
    const uint8_t *marks, size_t marks_length,
    uint32_t highest, uint32_t free_ticks, uint32_t margin,
    const uint8_t *plan, size_t plan_length,
    const uint8_t *prices, size_t prices_length,
    uint8_t *ordered, size_t ordered_length);

/* Lists what touches the span of ticks from `start` up to, not including, `end`, by a job table, its marks and a plan for them.
 * Lent are these, and three lists whose lengths count 32-bit numbers; no levels, and so no highest one. The span is taken as it is.
 * Number 0: the first `open`, `inside` and `steps` numbers of the three lists are written, and the rest stays. What is written rises,
 * has each member once and has nothing else:
 *   open    the numbers of the jobs open somewhere in the span: released before `end`, with a deadline after `start`
 *   inside  the numbers of the jobs wholly inside it: released at or after `start`, with a deadline at or before `end`
 *   steps   the cells of the plan's steps whose interval shares a tick with it; a cell is interval x 64 + job
 * and `deadline` is the nearest deadline at or after `start`, of all jobs, also of those after the span; 0 where there is none,
 * since no deadline is 0. A list may be exactly as long as what is written; 64 and 64 numbers, and as many as the plan has steps,
 * which is at most 64 x its intervals, are always enough. Otherwise, in this order: 33 where `start` is not before `end`, or `end`
 * is above 1,000,000, before anything is read; the job table's refusals 6 to 10; 34; 35 of free ticks or margin; 36; the plan's 15 to
 * 18, as ramyearly_check has them; and 14 for the first list that is too short, in the order open, inside, steps, its place the length
 * wanted. All lists then stay as they were. Without levels and prices 19 to 24 never occur: the plan's steps need not add up to its
 * jobs' cycles. */
struct ramyearly_touching_answer ramyearly_touching(
    const uint8_t *jobs, size_t jobs_length,
    const uint8_t *marks, size_t marks_length,
    uint32_t free_ticks, uint32_t margin,
    const uint8_t *plan, size_t plan_length,
    uint32_t start, uint32_t end,
    uint32_t *open, size_t open_length,
    uint32_t *inside, size_t inside_length,
    uint32_t *steps, size_t steps_length);

/* Lists the jobs with the one nearest to trouble first, for the client who would lengthen a task: how many cycles each job can have more.
 * Lent are levels and jobs, and a list whose length counts 32-bit numbers; no marks, which play no part. Number 0: the first `length`
 * numbers of the list are written, 2 x jobs of them, and the rest stays. They are for each job its number, and then the most cycles that
 * can be added to it alone with the set still fitting: with as many more some schedule over the levels allowed still meets all
 * deadlines, and with one more some window is overfull and none does. Jobs that can have the fewest come first, some of them perhaps
 * with 0, and those that can have as many as each other come by job number. Cycles are added to those with the margin, and the limit of
 * 1,000,000,000 that the job table has for cycles does not count for them. A list may be exactly as long as what is written, and so
 * empty without jobs; 128 numbers are always enough. Otherwise, in this order: refusals 1 to 10, 31, 32, 35 and 36, with the places of
 * ramyearly_spare; 11 where a window is overfull already, with the window and the spare of ramyearly_plan, and no schedule meets all
 * deadlines; and 14 where the list has under 2 x jobs numbers, its place 2 x jobs. The list then stays as it was. */
struct ramyearly_nearest_answer ramyearly_nearest(
    const uint8_t *levels, size_t levels_length,
    const uint8_t *jobs, size_t jobs_length,
    uint32_t highest, uint32_t free_ticks, uint32_t margin,
    uint32_t *list, size_t list_length);

#ifdef __cplusplus
}
#endif

#endif
