"""Every refusal in words, with the file and the line that it is about."""

import os
import unittest

import ramyearly
from ramyearly import reasons, refusals, tables
from ramyearly.calls import Call
from support import PAIR, PLAN, PRICES, TWO_JOBS, InFolder

T = "2 10\n4 20\n"
JOBS = "# release deadline cycles\n0 4 6\n2 3 4\n"


def levels(entries):
    return tables.to_bytes(entries, tables.LEVELS)


def jobs(entries):
    return tables.to_bytes(entries, tables.JOBS)


def plan(intervals, steps):
    return tables.to_bytes(tables.join_cells(steps), tables.PLAN, sizes=(intervals,))


def prices(entries):
    return tables.to_bytes(entries, tables.PRICES)


class Reading(InFolder):
    """Refusals of tables, by planning."""

    def expect(self, said, **files):
        site = self.site(**files)
        ended = self.run_command("plan", site)
        self.assertEqual((ended.returncode, ended.stdout, ended.stderr), (1, "", f"ramyearly: {site}/{said}\n"))
        self.assertEqual(sorted(os.listdir(site)), sorted(name.replace("_", ".") for name in files))

    def test_levels(self):
        for content, said in (
            (b"\1", "levels.tbl: 1 byte, but the sizes alone take 2 (refusal 1)"),
            (b"\0\0", "levels.tbl: 0 levels, but a table has 1 to 8 (refusal 2)"),
            (levels([(n, 1) for n in range(1, 10)]), "levels.tbl: 9 levels, but a table has 1 to 8 (refusal 2)"),
            (PAIR + b"\0", "levels.tbl: 11 bytes, but levels number 2, which takes 10 (refusal 3)"),
            (levels([(300, 90), (300, 90)]), "levels.tbl: frequency 300 is not above 300 before it (refusal 4, entry 1)"),
        ):
            self.expect(said, levels_tbl=content, jobs_txt=JOBS)

    def test_levels_in_text(self):
        for content, said in (
            ("# none\n", "levels.txt: 0 levels, but a table has 1 to 8 (refusal 2)"),
            ("300 90\n\n300 90\n", "levels.txt line 3: frequency 300 is not above 300 before it (refusal 4, entry 1)"),
            ("0 90\n", "levels.txt line 1: the idle entry stands alone: no level follows it (refusal 31)"),
            ("0 1\n0 90\n", "levels.txt line 2: frequency 0 is not in range (1 to 1,000) (refusal 4, entry 1)"),
            ("1001 10\n", "levels.txt line 1: frequency 1001 is not in range (1 to 1,000) (refusal 4, entry 0)"),
            ("2 10\n1001 10\n", "levels.txt line 2: frequency 1001 is not in range (1 to 1,000) (refusal 4, entry 1)"),
            ("2 10\n4 9\n", "levels.txt line 2: voltage 9 is below 10 before it (refusal 5, entry 1)"),
            ("2 0\n", "levels.txt line 1: voltage 0 is not in range (1 to 500) (refusal 5, entry 0)"),
            ("2 10\n4 501\n", "levels.txt line 2: voltage 501 is not in range (1 to 500) (refusal 5, entry 1)"),
        ):
            self.expect(said, levels_txt=content, jobs_txt=JOBS)

    def test_jobs(self):
        for content, said in (
            (b"", "jobs.tbl: 0 bytes, but the sizes alone take 2 (refusal 6)"),
            (jobs([(0, 1, 1)] * 65), "jobs.tbl: 65 jobs, but a table has at most 64 (refusal 7)"),
            (TWO_JOBS[:-1], "jobs.tbl: 25 bytes, but jobs number 2, which takes 26 (refusal 8)"),
            (jobs([(0, 1, 1), (3, 3, 1)]), "jobs.tbl: release 3 is not before deadline 3 (refusal 9, entry 1)"),
        ):
            self.expect(said, levels_txt=T, jobs_tbl=content)

    def test_jobs_in_text(self):
        for content, said in (
            ("0 1 1\n" * 65, "jobs.csv: 65 jobs, but a table has at most 64 (refusal 7)"),
            ("0 1 1\n# late\n5 4 1\n", "jobs.csv line 3: release 5 is not before deadline 4 (refusal 9, entry 1)"),
            ("0 1000001 1\n", "jobs.csv line 1: deadline 1000001 is above 1,000,000 (refusal 9, entry 0)"),
            ("0 1 0\n", "jobs.csv line 1: cycles 0 are not in range (1 to 1,000,000,000) (refusal 10, entry 0)"),
            ("0 1 1000000001\n", "jobs.csv line 1: cycles 1000000001 are not in range (1 to 1,000,000,000) (refusal 10, entry 0)"),
        ):
            self.expect(said, levels_txt=T, jobs_csv=content)

    def test_overfull(self):
        end = "than the top frequency gives (refusal 11, window 0 to"
        for content, said in (
            ("0 1 5\n", f"jobs.txt line 1: overfull: from 0 to 1 job 0 needs 1 cycle more {end} 1, spare -1)"),
            ("0 2 4\n5 6 1\n0 2 5\n", f"jobs.txt lines 1 and 3: overfull: from 0 to 2 jobs 0 and 2 need 1 cycle more {end} 2, spare -1)"),
            ("\n" + "0 2 4\n" * 3, f"jobs.txt lines 2, 3 and 4: overfull: from 0 to 2 jobs 0, 1 and 2 need 4 cycles more {end} 2, spare -4)"),
        ):
            self.expect(said, levels_txt=T, jobs_txt=content)
        said = f"jobs.tbl: overfull: from 0 to 1 job 1 needs 1 cycle more {end} 1, spare -1)"
        self.expect(said, levels_txt=T, jobs_tbl=jobs([(4, 6, 1), (0, 1, 5)]))

    def test_files_that_are_not_there(self):
        empty = "No such file or directory, so it counts as empty: 0 bytes, but the sizes alone take 2"
        self.expect(f"levels.tbl: {empty} (refusal 1)", jobs_txt=JOBS)
        self.expect(f"jobs.tbl: {empty} (refusal 6)", levels_txt=T)

    def test_files_that_cannot_be_read(self):
        site = self.site(levels_txt=T)
        os.mkdir(os.path.join(site, "jobs.tbl"))
        ended = self.run_command("plan", site)
        said = "Is a directory, so it counts as empty: 0 bytes, but the sizes alone take 2 (refusal 6)"
        self.assertEqual((ended.returncode, ended.stderr), (1, f"ramyearly: {site}/jobs.tbl: {said}\n"))
        os.mkdir(os.path.join(site, "jobs.txt"))
        ended = self.run_command("plan", site)
        self.assertEqual((ended.returncode, ended.stderr), (1, f"ramyearly: {site}/jobs.txt: Is a directory\n"))


class Checking(InFolder):
    """Refusals of plans and price lists, by the check and by ordering, those of plans by fits too, and those of steps by what
    touches a span too."""

    def expect(self, said, verbs=(["check"], ["order"]), **files):
        site = self.site(**{"levels_txt": T, "jobs_txt": JOBS, "plan_tbl": PLAN, "prices_tbl": PRICES, **files})
        for words in verbs:
            ended = self.run_command(*words, site)
            self.assertEqual((ended.returncode, ended.stdout, ended.stderr), (1, "", f"ramyearly: {site}/{said}\n"))
        self.assertEqual(sorted(os.listdir(site)), ["jobs.txt", "levels.txt", "plan.tbl", "prices.tbl"])

    def test_steps(self):
        sound = [(0, 0, 4), (1, 1, 4), (2, 0, 2)]
        for content, said in (
            (b"\3\0\3", "plan.tbl: 3 bytes, but the sizes alone take 4 (refusal 15)"),
            (PLAN + b"\0", "plan.tbl: 23 bytes, but steps number 3, which takes 22 (refusal 15)"),
            (plan(4, sound), "plan.tbl: 4 intervals, but the jobs make 3 (refusal 16)"),
            (plan(3, [(0, 1, 4), *sound]), "plan.tbl: job 1 is not open in interval 0 (refusal 17, step 0)"),
            (plan(3, [*sound, (1, 1, 1)]), "plan.tbl: job 1 in interval 1 stands in step 1 already (refusal 17, step 3)"),
            (plan(3, [*sound, (1, 0, 0)]), "plan.tbl: 0 cycles of job 0 in interval 1 (refusal 18, step 3)"),
            (plan(3, [(1, 1, 5)]), "plan.tbl: 5 cycles of job 1 in interval 1, but the job has 4 (refusal 18, step 0)"),
        ):
            self.expect(said, (["check"], ["order"], ["fits"], ["span", "0", "4"]), plan_tbl=content)

    def test_sums(self):
        for content, said in (
            (plan(3, [(0, 0, 4), (1, 1, 4)]), "jobs.txt line 2: the plan gives job 0 4 cycles, but it has 6 (refusal 19, job 0)"),
            (
                plan(3, [(1, 0, 1), (1, 1, 4), (0, 0, 5)]),
                "plan.tbl: interval 1, from 2 to 3, has 5 cycles, but the top frequency gives 4 in 1 tick (refusal 20, interval 1)",
            ),
        ):
            self.expect(said, (["check"], ["order"], ["fits"]), plan_tbl=content)

    def test_price_lists(self):
        for content, said in (
            (b"\3", "prices.tbl: 1 byte, but the sizes alone take 2 (refusal 21)"),
            (PRICES + b"\0", "prices.tbl: 18 bytes, but intervals number 3, which takes 17 (refusal 21)"),
            (prices([(2, 1), (3, 2)]), "prices.tbl: 2 intervals, but the plan has 3 (refusal 21)"),
            (prices([(2, 1), (4, 2), (4, 1)]), "prices.tbl: interval 1 ends at 3, not at 4 (refusal 22, interval 1)"),
            (prices([(2, 1), (3, 3), (4, 1)]), "prices.tbl: price 3 of interval 1 is not the number of a band (refusal 22, interval 1)"),
            (
                prices([(2, 1), (3, 1), (4, 1)]),
                "prices.tbl: price 1 does not fit the load 4 of interval 1, which is in band 2 (refusal 23, interval 1)",
            ),
        ):
            self.expect(said, prices_tbl=content)

    def test_prices_of_an_idle_interval(self):
        said = "prices.tbl: price 2 does not fit the load 0 of interval 1, which wants price 1 (refusal 23, interval 1)"
        self.expect(
            said,
            jobs_txt="0 1 2\n5 6 2\n",
            plan_tbl=plan(3, [(0, 0, 2), (2, 1, 2)]),
            prices_tbl=prices([(1, 1), (5, 2), (6, 1)]),
        )

    def test_a_dearer_interval(self):
        self.expect(
            "plan.tbl: job 0 runs in interval 1 at price 2, but is open in one of a smaller price (refusal 24, step 1)",
            jobs_txt="0 2 4\n1 2 1\n",
            plan_tbl=plan(2, [(0, 0, 1), (1, 0, 3), (1, 1, 1)]),
            prices_tbl=prices([(1, 1), (2, 2)]),
        )

    def test_no_plan(self):
        site = self.site(levels_txt=T, jobs_txt=JOBS)
        ended = self.run_command("check", site)
        empty = "plan.tbl: No such file or directory, so it counts as empty: 0 bytes, but the sizes alone take 4 (refusal 15)"
        self.assertEqual((ended.returncode, ended.stderr), (1, f"ramyearly: {site}/{empty}\n"))


class Numbers(unittest.TestCase):
    """Refusals of what is no table."""

    def test_settings_windows_and_spans(self):
        pair = [(2, 10), (4, 20)]
        for function, values, said in (
            (ramyearly.setting, (pair, 0, 0), "length 0 is not in range (1 to 1,000,000) (refusal 25)"),
            (ramyearly.setting, (pair, 3, 13), "load 13 is more than the top frequency gives in 3 ticks (refusal 26)"),
            (ramyearly.spare, (pair, [], 3, 3), "start 3 is not before end 3 (refusal 27)"),
            (ramyearly.spare, (pair, [], 0, 1_000_001), "end 1000001 is above 1,000,000 (refusal 27)"),
            (ramyearly.touching, ([], (0, []), 3, 3), "start 3 is not before end 3 (refusal 33)"),
            (ramyearly.touching, ([], (0, []), 0, 1_000_001), "end 1000001 is above 1,000,000 (refusal 33)"),
        ):
            with self.assertRaises(ramyearly.Refused) as caught:
                function(*values)
            self.assertEqual(str(caught.exception), said)

    def test_buffers(self):
        """The package asks for the lengths wanted, so that these are never seen."""
        for number, what in ((12, "a buffer"), (13, "a buffer"), (14, "a shares table or a list")):
            refusal = refusals.refused(number, 22, Call())
            self.assertEqual(str(refusal), f"{what} is too short (refusal {number}, length wanted 22)")

    def test_every_refusal_has_words(self):
        self.assertEqual(sorted([*reasons.REASONS, 11, 35]), list(range(1, 37)))


if __name__ == "__main__":
    unittest.main()
