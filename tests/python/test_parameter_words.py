"""What is said of parameters that are refused, and of tables that they have altered."""

import unittest

import ramyearly
from ramyearly import operations, tables
from ramyearly.parameters import Parameters
from support import PLAN

T = [(2, 10), (4, 20)]
JOBS = [(0, 4, 6), (2, 3, 4)]
FIVE = [(300, 140), (350, 150), (400, 160), (450, 170), (500, 180)]
MOST = 2**32 - 1


class Words(unittest.TestCase):
    def expect(self, said, function, *values, **given):
        with self.assertRaises(ramyearly.Refused) as caught:
            function(*values, **given)
        self.assertEqual(str(caught.exception), said)

    def test_which_parameter(self):
        of_five = "is not in range (1 to 5, the running levels of the table) (refusal 35)"
        for given, said in (
            ({"highest": 0}, f"levels: highest level 0 {of_five}"),
            ({"highest": 6}, f"levels: highest level 6 {of_five}"),
            ({"free": 1_000_001}, "free ticks 1000001 are not in range (0 to 1,000,000) (refusal 35)"),
            ({"margin": 101}, "margin 101 is not in range (0 to 100 percent) (refusal 35)"),
            # The first of several.
            ({"highest": MOST, "free": MOST, "margin": MOST}, f"levels: highest level {MOST} {of_five}"),
            ({"highest": 5, "free": MOST, "margin": MOST}, f"free ticks {MOST} are not in range (0 to 1,000,000) (refusal 35)"),
        ):
            for levels in (FIVE, [(0, 1), *FIVE]):
                self.expect(said, ramyearly.plan, levels, JOBS, **given)
                self.expect(said, ramyearly.spare, levels, JOBS, 0, 4, **given)
                self.expect(said, ramyearly.nearest, levels, JOBS, **given)
        self.expect(f"levels: highest level 6 {of_five}", ramyearly.setting, FIVE, 1, 1, highest=6)
        self.expect(f"levels: highest level 6 {of_five}", ramyearly.working_frequencies, FIVE, highest=6)
        said = "free ticks 1000001 are not in range (0 to 1,000,000) (refusal 35)"
        self.expect(said, ramyearly.touching, JOBS, (3, []), 0, 4, free=1_000_001, margin=101)

    def test_which_job(self):
        empty = "jobs: nothing is left of the window of job 1: deadline"
        for free, said in (
            (1, f"{empty} 3 less 1 tick kept free is not after release 2 (refusal 36, job 1)"),
            (3, f"{empty} 3 less 3 ticks kept free is not after release 2 (refusal 36, job 1)"),
        ):
            self.expect(said, ramyearly.plan, T, JOBS, free=free)
            self.expect(said, ramyearly.touching, JOBS, (3, []), 0, 4, free=free)
            self.expect(said, ramyearly.nearest, T, JOBS, free=free)
        many = "cycles 990099010 of job 1 with a margin of 1 percent are 1000000001, above 1,000,000,000"
        self.expect(f"jobs: {many} (refusal 36, job 1)", ramyearly.spare, T, [(0, 4, 6), (0, 4, 990_099_010)], 0, 4, margin=1)

    def test_of_altered_tables(self):
        """What is said of a plan or of a window has the altered numbers, and the parameters that made them."""
        jobs = [(0, 9, 6), (2, 8, 4)]  # with 5 free ticks those of document 01's site
        steps, prices = [(0, 0, 4), (1, 1, 4), (2, 0, 2)], [(2, 1), (3, 2), (4, 1)]
        for steps, prices, given, said in (
            (steps, [*prices, (5, 1)], {}, "plan: 4 intervals, but the jobs make 3, with free 5 (refusal 16)"),
            ([(0, 1, 4)], prices, {}, "plan: job 1 is not open in interval 0, with free 5 (refusal 17, step 0)"),
            (
                [(0, 0, 8)],
                prices,
                {"margin": 10},
                "plan: 8 cycles of job 0 in interval 0, but the job has 7, with free 5, margin 10 (refusal 18, step 0)",
            ),
            (
                steps,
                prices,
                {"margin": 1},
                "jobs: the plan gives job 0 6 cycles, but it has 7, with free 5, margin 1 (refusal 19, job 0)",
            ),
            (
                steps,
                prices,
                {"highest": 1},
                "plan: interval 1, from 2 to 3, has 4 cycles, but the top frequency gives 2 in 1 tick, "
                "with highest 1, free 5 (refusal 20, interval 1)",
            ),
            (steps, [(2, 1), (8, 2), (4, 1)], {}, "prices: interval 1 ends at 3, not at 8, with free 5 (refusal 22, interval 1)"),
            (
                steps,
                [(2, 1), (3, 1), (4, 1)],
                {},
                "prices: price 1 does not fit the load 4 of interval 1, which is in band 2, with free 5 "
                "(refusal 23, interval 1)",
            ),
        ):
            self.expect(said, ramyearly.check, T, jobs, steps, prices, free=5, **given)
        # 21 speaks of no table that is altered.
        lent = operations.level_table(T), operations.job_table(jobs), tables.NO_MARKS, PLAN, b"\0\0", Parameters(free=5)
        self.expect("prices: 0 intervals, but the plan has 3 (refusal 21)", operations.check_tables, *lent)
        window = "(refusal 11, window 2 to 3, spare -1)"
        more = "overfull: from 2 to 3 job 1 needs 1 cycle more than the top frequency gives"
        for function in (ramyearly.plan, ramyearly.nearest):
            self.expect(f"jobs: {more}, with free 5, margin 25 {window}", function, T, jobs, free=5, margin=25)
        said = "load 3 is more than the top frequency gives in 1 ticks, with highest 1 (refusal 26)"
        self.expect(said, ramyearly.setting, T, 1, 3, highest=1)
        # What alters nothing is not said.
        more = "overfull: from 0 to 1 job 0 needs 1 cycle more than the top frequency gives"
        self.expect(f"jobs: {more} (refusal 11, window 0 to 1, spare -1)", ramyearly.plan, T, [(0, 1, 5)], highest=2)

    def test_dearer(self):
        dearer = "job 0 runs in interval 1 at price 2, but is open in one of a smaller price"
        made = [(0, 5, 4), (2, 5, 2)], [(1, 0, 4), (1, 1, 2)], [(2, 1), (4, 2)]
        self.expect(f"plan: {dearer}, with free 1 (refusal 24, step 0)", ramyearly.check, T, *made, free=1)


if __name__ == "__main__":
    unittest.main()
