"""Folders with a plan made by hand: its forms, which of them is used, what is printed, written and refused."""

import os
import shutil
import unittest

from ramyearly import tables
from support import BACKWARDS, PAIR, PLAN, PRICES, ROOT, TWO_JOBS, InFolder, read, write

LEVELS = "2 10\n4 20\n"
JOBS = "# release deadline cycles\n0 4 6\n\n2 3 4\n"
TASKS = "0 4 4 6\n# in each period\n2 4 1 4\n"
STEPS = "0 0 4\n1 1 4\n2 0 2\n"
# All of job 0 in its first interval.
EARLY = "# made by hand\n\n1 1 4   # the check\n0 0 6   # the scan, at once\n"
EARLY_BYTES = bytes.fromhex("0300 0200 4100 0000 04000000 06000000")
# The same plans in other forms of text.
FORMS = (
    ("plan.txt", STEPS),
    ("plan.txt", "# interval job cycles\n0,0 , 4\n\n  1\t1 0_004 # the check\n2 0 2"),
    ("plan.txt", "Interval Job Cycles\n" + STEPS),
    ("plan.csv", "interval,job,cycles\n0,0,4\n1,1,4\n2,0,2\n"),
    ("plan.csv", b"\xef\xbb\xbfinterval,job,cycles\r\n0,0,4\r\n1,1,4\r\n2,0,2\r\n"),
)


class FitsFolders(InFolder):
    def hand_made(self, **files):
        """A site with a plan in text where nothing else is given."""
        return self.site(**{"levels_txt": LEVELS, "jobs_txt": JOBS, "plan_txt": EARLY, **files})

    def expect(self, words, status, printed, said=""):
        ended = self.run_command("fits", *words)
        self.assertEqual((ended.returncode, ended.stdout, ended.stderr), (status, printed, said))

    def expect_fits(self, site, file="plan.txt", energy=3400, repeats=""):
        """That the plan fits, and that nothing is written."""
        before = self.contents(site)
        self.expect([site], 0, f"{site}: {file} fits, energy {energy}{repeats}\n")
        self.assertEqual(self.contents(site), before)

    def refuse(self, site, said):
        """That the site is refused, with this said of it, and that nothing is written."""
        before = self.contents(site)
        self.expect([site, "-o", site], 1, "", f"ramyearly: {site}{said}\n")
        self.assertEqual(self.contents(site), before)

    def contents(self, folder):
        return {name: read(os.path.join(folder, name)) for name in os.listdir(folder)}


class Forms(FitsFolders):
    def test_text(self):
        for name, content in FORMS:
            site = self.site(levels_txt=LEVELS, jobs_txt=JOBS)
            write(os.path.join(site, name), content)
            self.expect_fits(site, name, 2200)

    def test_bytes(self):
        for plan, energy in ((PLAN, 2200), (BACKWARDS, 2200), (EARLY_BYTES, 3400)):
            self.expect_fits(self.site(levels_tbl=PAIR, jobs_tbl=TWO_JOBS, plan_tbl=plan), "plan.tbl", energy)

    def test_text_before_bytes(self):
        """As with the other tables: what stands in plan.tbl is no matter."""
        for data in (PLAN, b"", b"no plan"):
            self.expect_fits(self.hand_made(plan_tbl=data))
        site = self.hand_made(plan_csv=EARLY)
        self.refuse(site, "/plan.csv: plan.txt is there too; keep one of them")

    def test_prices_are_not_read(self):
        for prices in (PRICES, b"", b"no prices"):
            self.expect_fits(self.hand_made(prices_tbl=prices))
        ended = self.run_command("check", self.site(levels_txt=LEVELS, jobs_txt=JOBS, plan_tbl=EARLY_BYTES, prices_tbl=PRICES))
        self.assertEqual((ended.returncode, ended.stdout), (1, ""))

    def test_tables_in_bytes(self):
        self.expect_fits(self.site(levels_tbl=PAIR, jobs_tbl=TWO_JOBS, plan_txt=EARLY))

    def test_no_jobs(self):
        for plan in ("", "# nothing to do\n", "interval job cycles\n"):
            self.expect_fits(self.hand_made(jobs_txt="", plan_txt=plan), energy=0)
        self.expect_fits(self.hand_made(jobs_txt="", plan_txt="", levels_txt="0 0\n2 10\n"), energy=0)

    def test_tasks(self):
        """The jobs are those of one round."""
        repeats = ", repeats every 4 ticks"
        self.expect_fits(self.site(levels_txt=LEVELS, tasks_txt=TASKS, plan_txt=EARLY), repeats=repeats)
        self.expect_fits(self.site(levels_txt=LEVELS, tasks_txt=TASKS, plan_tbl=PLAN), "plan.tbl", 2200, repeats)
        self.expect_fits(self.site(levels_txt=LEVELS, tasks_txt="", plan_txt=""), energy=0, repeats=", repeats every 1 tick")

    def test_marks(self):
        """They cut intervals, and a plan in text has those of the site. A plan in bytes has its own."""
        cut = "0 0 3\n1 0 2\n2 1 4\n3 0 1\n"
        for marks in ("1\n", "0\n1\n2\n1_000\n"):
            self.expect_fits(self.hand_made(marks_txt=marks, plan_txt=cut), energy=2800)
        site = self.site(levels_txt=LEVELS, tasks_txt=TASKS, marks_txt="1", plan_txt=cut)
        self.expect_fits(site, energy=2800, repeats=", repeats every 4 ticks")
        self.expect_fits(self.hand_made(marks_txt="2\n"))
        self.expect_fits(self.hand_made(marks_tbl=b""))
        site = self.hand_made(marks_txt="1\n", plan_txt=EARLY)
        self.refuse(site, "/plan.txt line 3: job 1 is not open in interval 1 (refusal 17, step 0)")
        site = self.site(levels_txt=LEVELS, jobs_txt=JOBS, marks_txt="1\n", plan_tbl=PLAN)
        self.refuse(site, "/plan.tbl: 3 intervals, but the jobs and the marks make 4 (refusal 16)")

    def test_an_idle_entry(self):
        # The last tick of the four idles.
        self.expect_fits(self.hand_made(levels_txt="0 1\n2 100\n4 200\n"), energy=341000)

    def test_the_example_of_the_mark(self):
        """A job of 4 cycles, all of them before the handover: 1,600, where 400 would do."""
        site = self.hand_made(jobs_txt="0 2 4\n", marks_txt="1\n", plan_txt="0 0 4\n")
        self.expect_fits(site, energy=1600)
        self.assertTrue(self.run_command(site).stdout.endswith("energy 400\n"))

    def test_what_decode_prints(self):
        """A plan, also an ordered one, is read back from its text, and written as the bytes that it was made from."""
        for words, ending in ((), ".txt"), (("--csv",), ".csv"):
            for plan in (PLAN, BACKWARDS, EARLY_BYTES):
                site, text, out = self.site(plan_tbl=plan), self.site(levels_txt=LEVELS, jobs_txt=JOBS), self.site()
                self.assertEqual(self.run_command("decode", *words, site, text).returncode, 0)
                self.assertEqual(self.run_command("fits", text, "-o", out).returncode, 0)
                self.assertEqual(self.contents(out), {"plan.tbl": plan})
                printed = self.run_command("decode", *words, self.site(ordered_tbl=plan)).stdout
                site = self.site(levels_txt=LEVELS, jobs_txt=JOBS)
                write(os.path.join(site, "plan" + ending), printed)
                self.expect_fits(site, "plan" + ending, 3400 if plan == EARLY_BYTES else 2200)

    def test_after_planning(self):
        """The plan that is written fits, with the figure of the check."""
        site = self.site(levels_txt=LEVELS, jobs_txt=JOBS)
        self.assertEqual(self.run_command("plan", site).returncode, 0)
        self.expect_fits(site, "plan.tbl", 2200)
        self.assertEqual(self.run_command("check", site).stdout, f"{site}: accepted, energy 2200\n")

    def test_the_other_verbs_read_the_bytes(self):
        """Text that is no plan bears on none of them."""
        for text in (EARLY, "no plan\n"):
            site = self.site(levels_txt=LEVELS, jobs_txt=JOBS, plan_tbl=PLAN, prices_tbl=PRICES, plan_txt=text)
            for words in (["check"], ["order"], ["boards"], ["span", "0", "4"], ["decode"], [], ["report"], ["plan"]):
                self.assertEqual(self.run_command(*words, site).returncode, 0, words)
            self.assertEqual(read(os.path.join(site, "plan.tbl")), PLAN)
            self.assertEqual(read(os.path.join(site, "plan.txt")), text.encode())
        site, out = self.hand_made(), self.site()
        self.assertEqual(self.run_command("encode", site, out).returncode, 0)
        self.assertEqual(sorted(os.listdir(out)), ["jobs.tbl", "levels.tbl"])
        for verb in ("check", "order"):
            ended = self.run_command(verb, site)
            self.assertEqual((ended.returncode, ended.stdout), (1, ""))
            self.assertIn(f"{site}/plan.tbl: No such file or directory, so it counts as empty", ended.stderr)


class Written(FitsFolders):
    def test_bytes_of_a_text(self):
        site, out = self.hand_made(), self.site()
        before = self.contents(site)
        self.expect([site, "-o", out], 0, f"{site}: plan.txt fits, energy 3400; wrote {out}/plan.tbl\n")
        self.assertEqual((self.contents(site), self.contents(out)), (before, {"plan.tbl": EARLY_BYTES}))
        # To the site itself, over an older one. The text is used as before.
        for older in ({}, {"plan.tbl": PLAN}):
            for name, content in older.items():
                write(os.path.join(site, name), content)
            self.expect([site, "-o", site], 0, f"{site}: plan.txt fits, energy 3400; wrote {site}/plan.tbl\n")
            self.assertEqual(self.contents(site), {**before, "plan.tbl": EARLY_BYTES})
        self.expect_fits(site)

    def test_intervals_of_the_site(self):
        """With marks and tasks: the first size of what is written."""
        site, out = self.site(levels_txt=LEVELS, tasks_txt=TASKS, marks_txt="1\n", plan_txt="2 1 4\n0 0 4\n1 0 2\n"), self.site()
        printed = f"{site}: plan.txt fits, energy 3400, repeats every 4 ticks; wrote {out}/plan.tbl\n"
        self.expect([site, "-o", out], 0, printed)
        plan = bytes.fromhex("0400 0300 8100 0000 4000 04000000 04000000 02000000")
        self.assertEqual(self.contents(out), {"plan.tbl": plan})
        site, out = self.hand_made(jobs_txt="", plan_txt=""), self.site()
        self.expect([site, "-o", out], 0, f"{site}: plan.txt fits, energy 0; wrote {out}/plan.tbl\n")
        self.assertEqual(self.contents(out), {"plan.tbl": bytes(4)})

    def test_bytes_of_bytes(self):
        site, out = self.site(levels_txt=LEVELS, jobs_txt=JOBS, plan_tbl=BACKWARDS), self.site()
        self.expect([site, "-o", out], 0, f"{site}: plan.tbl fits, energy 2200; wrote {out}/plan.tbl\n")
        self.assertEqual(self.contents(out), {"plan.tbl": BACKWARDS})

    def test_what_is_written_is_a_plan_for_the_others(self):
        """With the prices of planning the check accepts it exactly where it is a least one."""
        for plan, status in ((EARLY, 1), ("2 0 2\n1 1 4\n0 0 4\n", 0)):
            site = self.hand_made(plan_txt=plan)
            self.assertEqual(self.run_command("plan", site).returncode, 0)
            self.assertEqual(self.run_command("fits", site, "-o", site).returncode, 0)
            self.assertEqual(self.run_command("check", site).returncode, status)
            self.assertEqual(self.run_command("span", "0", "4", site).returncode, 0)

    def test_folders_to_write_to(self):
        site, out = self.hand_made(), self.site()
        self.expect([site, "-o", out + "/x"], 2, "", f"ramyearly: {out}/x: no such folder\n")
        write(os.path.join(out, "file"), "")
        self.expect([site, "-o", out + "/file"], 2, "", f"ramyearly: {out}/file: not a folder\n")
        ended = self.run_command("fits", site, site, "-o", out)
        self.assertEqual((ended.returncode, ended.stdout), (2, ""))
        self.assertIn("-o takes one site, or the plans would be written over each other", ended.stderr)
        self.assertEqual(self.contents(out), {"file": b""})

    def test_a_file_that_cannot_be_written(self):
        site, out = self.hand_made(), self.site()
        os.mkdir(os.path.join(out, "plan.tbl"))
        self.expect([site, "-o", out], 2, "", f"ramyearly: {out}/plan.tbl: Is a directory\n")
        self.assertEqual(os.listdir(out), ["plan.tbl"])


class Refused(FitsFolders):
    def test_no_plan(self):
        for files in ({"jobs_txt": JOBS}, {"tasks_txt": TASKS}, {"jobs_txt": JOBS, "prices_tbl": PRICES}):
            site = self.site(levels_txt=LEVELS, **files)
            form = "a line of plan.txt is a step: interval, job, cycles (--help says more)"
            self.refuse(site, f": no plan (plan.txt, plan.csv or plan.tbl); {form}")

    def test_no_tables(self):
        names = "jobs.txt or tasks.txt, levels.txt"
        self.refuse(self.site(plan_txt=EARLY), f": no job list, no task list and no level list ({names}; --help says more)")
        empty = "No such file or directory, so it counts as empty: 0 bytes, but the sizes alone take 2"
        self.refuse(self.site(plan_txt=EARLY, levels_txt=LEVELS), f"/jobs.tbl: {empty} (refusal 6)")
        self.refuse(self.site(plan_txt=EARLY, jobs_txt=JOBS), f"/levels.tbl: {empty} (refusal 1)")
        self.refuse(self.site(plan_tbl=PLAN, levels_txt=LEVELS), f"/jobs.tbl: {empty} (refusal 6)")

    def test_lines_that_are_no_steps(self):
        for plan, said in (
            ("0 0 4\n1 1\n", "line 2: 2 columns, but a step has 3: interval, job, cycles"),
            ("0 0 4 1\n", "line 1: 4 columns, but a step has 3: interval, job, cycles"),
            ("0 0 4\ninterval job cycles\n", "line 2: interval 'interval' is not a whole number"),
            ("# by hand\n0 x 4\n", "line 2: job 'x' is not a whole number"),
            ("0,,4\n", "line 1: job is empty"),
            ("0 0 4.5\n", "line 1: cycles '4.5' is not a whole number"),
            # What has no room in the bytes.
            ("0 0 4\n\n0 64 4\n", "line 3: job '64' does not fit in 6 bits (0 to 63)"),
            ("0 -1 4\n", "line 1: job '-1' does not fit in 6 bits (0 to 63)"),
            ("1_024 0 4\n", "line 1: interval '1_024' does not fit in 10 bits (0 to 1023)"),
            ("0 0 4294967296\n", "line 1: cycles '4294967296' does not fit in 32 bits (0 to 4294967295)"),
            (b"0 0 4\n\xff\n", "line 2: this is not text"),
        ):
            self.refuse(self.hand_made(plan_txt=plan), f"/plan.txt {said}")
        site = self.site(levels_txt=LEVELS, jobs_txt=JOBS, plan_csv="0,64,4\n")
        self.refuse(site, "/plan.csv line 1: job '64' does not fit in 6 bits (0 to 63)")
        site = self.hand_made(plan_txt="0 0 4\n" * (tables.MOST_ENTRIES + 1))
        self.refuse(site, "/plan.txt line 65536: more than 65535 entries do not fit in the count's 16 bits")

    def test_steps(self):
        """With the line of the step."""
        for plan, said in (
            (EARLY + "0 1 1\n", "line 5: job 1 is not open in interval 0 (refusal 17, step 2)"),
            (EARLY + "3 0 1\n", "line 5: job 0 is not open in interval 3 (refusal 17, step 2)"),
            (EARLY + "1023 63 1\n", "line 5: job 63 is not open in interval 1023 (refusal 17, step 2)"),
            (EARLY + "\n1 1 4\n", "line 6: job 1 in interval 1 stands in step 0 already (refusal 17, step 2)"),
            ("# by hand\n0 0 4\n1 1 0\n", "line 3: 0 cycles of job 1 in interval 1 (refusal 18, step 1)"),
            ("# by hand\n0 0 4\n1 1 5\n", "line 3: 5 cycles of job 1 in interval 1, but the job has 4 (refusal 18, step 1)"),
        ):
            self.refuse(self.hand_made(plan_txt=plan), f"/plan.txt {said}")
        site = self.site(levels_txt=LEVELS, jobs_txt=JOBS, plan_csv="interval,job,cycles\n0,1,4\n")
        self.refuse(site, "/plan.csv line 2: job 1 is not open in interval 0 (refusal 17, step 0)")

    def test_sums_and_loads(self):
        """Cycles of a job, with the line of the job, and of an interval, with the lines of its steps."""
        few = "the plan gives job 0 4 cycles, but it has 6 (refusal 19, job 0)"
        self.refuse(self.hand_made(plan_txt="1 1 4\n0 0 4\n"), f"/jobs.txt line 2: {few}")
        self.refuse(self.site(levels_txt=LEVELS, tasks_txt=TASKS, plan_txt="1 1 4\n0 0 4\n"), f"/tasks.txt line 1: {few}")
        many = "the plan gives job 0 9 cycles, but it has 6 (refusal 19, job 0)"
        self.refuse(self.hand_made(plan_txt="1 1 4\n0 0 6\n2 0 3\n"), f"/jobs.txt line 2: {many}")
        none = "the plan gives job 0 0 cycles, but it has 6 (refusal 19, job 0)"
        self.refuse(self.hand_made(plan_txt=""), f"/jobs.txt line 2: {none}")
        over = "interval 1, from 2 to 3, has 5 cycles, but the top frequency gives 4 in 1 tick (refusal 20, interval 1)"
        self.refuse(self.hand_made(plan_txt="1 0 1\n0 0 5\n\n1 1 4\n"), f"/plan.txt lines 1 and 4: {over}")
        plan = bytes.fromhex("0300 0300 4000 4100 0000 01000000 04000000 05000000")
        self.refuse(self.site(levels_txt=LEVELS, jobs_txt=JOBS, plan_tbl=plan), f"/plan.tbl: {over}")
        over = "interval 0, from 0 to 2, has 6 cycles, but the top frequency gives 4 in 2 ticks (refusal 20, interval 0)"
        site = self.hand_made(levels_txt="1 10\n2 20\n", jobs_txt="0 4 6\n2 3 1\n", plan_txt="0 0 6\n1 1 1\n")
        self.refuse(site, f"/plan.txt line 1: {over}")

    def test_tables(self):
        """Levels, jobs, marks and tasks, each with its line, before the plan."""
        for files, said in (
            ({"levels_txt": "2 10\n2 20\n"}, "/levels.txt line 2: frequency 2 is not above 2 before it (refusal 4, entry 1)"),
            ({"levels_txt": "0 5\n"}, "/levels.txt line 1: the idle entry stands alone: no level follows it (refusal 31)"),
            ({"levels_txt": "2 x\n"}, "/levels.txt line 1: voltage 'x' is not a whole number"),
            ({"jobs_txt": "0 4 6\n\n3 3 4\n"}, "/jobs.txt line 3: release 3 is not before deadline 3 (refusal 9, entry 1)"),
            ({"jobs_txt": "0 4 0\n"}, "/jobs.txt line 1: cycles 0 are not in range (1 to 1,000,000,000) (refusal 10, entry 0)"),
            ({"jobs_txt": "0 1 1\n" * 65}, "/jobs.txt: 65 jobs, but a table has at most 64 (refusal 7)"),
            ({"marks_txt": "3\n1\n"}, "/marks.txt line 2: mark 1 is not above 3 before it (refusal 34)"),
            ({"marks_txt": "1 2\n"}, "/marks.txt line 1: 2 columns, but a mark has 1: tick"),
        ):
            for plan in (EARLY, "", "7 7 7\n"):
                self.refuse(self.hand_made(**files, plan_txt=plan), said)
        for task, said in (
            ("2 0 1 4", "line 2: the period is 0 (refusal 28, entry 1)"),
            ("2 x 1 4", "line 2: period 'x' is not a whole number"),
        ):
            site = self.site(levels_txt=LEVELS, tasks_txt=f"0 4 4 6\n{task}\n", plan_txt=EARLY)
            self.refuse(site, f"/tasks.txt {said}")
        site = self.hand_made(tasks_txt=TASKS)
        self.refuse(site, "/tasks.txt: jobs.txt is there too, and a task list stands in place of a job list; keep one of them")

    def test_plans_in_bytes(self):
        for plan, said in (
            (b"", "0 bytes, but the sizes alone take 4 (refusal 15)"),
            (PLAN[:-1], "21 bytes, but steps number 3, which takes 22 (refusal 15)"),
            (b"\4" + PLAN[1:], "4 intervals, but the jobs make 3 (refusal 16)"),
        ):
            self.refuse(self.site(levels_txt=LEVELS, jobs_txt=JOBS, plan_tbl=plan), f"/plan.tbl: {said}")

    def test_files_that_cannot_be_read(self):
        site = self.site(levels_txt=LEVELS, jobs_txt=JOBS)
        os.mkdir(os.path.join(site, "plan.tbl"))
        said = "Is a directory, so it counts as empty: 0 bytes, but the sizes alone take 4 (refusal 15)"
        self.expect([site], 1, "", f"ramyearly: {site}/plan.tbl: {said}\n")
        os.mkdir(os.path.join(site, "plan.txt"))
        self.expect([site], 1, "", f"ramyearly: {site}/plan.txt: Is a directory\n")


class Usage(FitsFolders):
    def test_several_folders(self):
        """The work goes on after one that is refused, and the worst status is the command's."""
        sites = [self.hand_made(), self.hand_made(plan_txt=""), self.site(levels_txt=LEVELS, jobs_txt=JOBS, plan_tbl=PLAN)]
        first, last = f"{sites[0]}: plan.txt fits, energy 3400\n", f"{sites[2]}: plan.tbl fits, energy 2200\n"
        self.expect([sites[0], sites[2]], 0, first + last)
        said = f"ramyearly: {sites[1]}/jobs.txt line 2: the plan gives job 0 0 cycles, but it has 6 (refusal 19, job 0)\n"
        self.expect(sites, 1, first + last, said)
        missing = self.folder + "/none"
        self.expect([sites[0], missing, sites[2]], 2, first + last, f"ramyearly: {missing}: no such folder\n")
        self.expect([sites[0] + "/jobs.txt"], 2, "", f"ramyearly: {sites[0]}/jobs.txt: not a folder\n")

    def test_wrong_usage(self):
        for words in ([], ["--nonsense", self.hand_made()], [self.hand_made(), "-o"]):
            ended = self.run_command("fits", *words)
            self.assertEqual((ended.returncode, ended.stdout), (2, ""))
            usage = "usage: ramyearly fits [-h] [--highest N] [--free N] [--margin N] [-o OUT] DIR"
            self.assertIn(usage, " ".join(ended.stderr.split()))

    def test_a_folder_with_the_name_of_the_verb(self):
        site = self.site(name="fits", levels_txt=LEVELS, jobs_txt=JOBS, plan_txt=STEPS)
        self.assertEqual(self.run_command("fits", "fits", cwd=self.folder).stdout, "fits: plan.txt fits, energy 2200\n")
        self.assertTrue(self.run_command("./fits", cwd=self.folder).stdout.endswith("energy 2200\n"))
        self.assertEqual(sorted(os.listdir(site)), ["jobs.txt", "levels.txt", "plan.txt"])

    def test_names_that_are_no_text(self):
        site = self.site(name="caf\udce9", levels_txt=LEVELS, jobs_txt=JOBS, plan_txt=STEPS)
        ended = self.run_command("fits", site, text=False)
        self.assertEqual((ended.returncode, ended.stderr), (0, b""))
        self.assertTrue(ended.stdout.endswith(b"caf\xe9: plan.txt fits, energy 2200\n"))

    def test_help(self):
        """It says what is promised and what is not, and how a plan is written."""
        shown = " ".join(self.run_command("fits", "--help").stdout.split())
        for words in (
            "exactly its cycles between release and deadline and, carried out, meets all deadlines",
            "whether another schedule needs less energy is not said: that is what check says",
            "plan.txt or plan.csv, a step to a line: interval, job and cycles",
            "nothing is written if left out",
        ):
            self.assertIn(words, shown)
        shown = self.run_command("--help").stdout
        self.assertIn("plan.txt   or plan.csv     interval, job and cycles, a step to a line", shown)
        for verb in ("encode", "decode"):
            self.assertIn("plan.txt or plan.csv", self.run_command(verb, "--help").stdout)

    def test_the_example(self):
        """It fits, with more than the least energy."""
        site = os.path.join("examples", "by-hand")
        ended = self.run_command("fits", site, cwd=ROOT)
        printed = read(os.path.join(ROOT, site, "expected-fits.txt")).decode()
        self.assertEqual((ended.returncode, ended.stdout, ended.stderr), (0, printed, ""))
        # The listing has the least energy.
        least = self.run_command(site, cwd=ROOT).stdout.split()[-1]
        self.assertLess(int(least), int(printed.split()[-1]))
        # Both figures stand in the README.
        with open(os.path.join(ROOT, "README.md"), encoding="utf-8") as file:
            readme = file.read()
        self.assertTrue(f"    {printed}" in readme and f"{int(least):,}" in readme)
        copy = os.path.join(self.folder, "copy")
        shutil.copytree(os.path.join(ROOT, site), copy)
        self.expect([copy, "-o", copy], 0, printed.replace(site, copy).replace("\n", f"; wrote {copy}/plan.tbl\n"))


if __name__ == "__main__":
    unittest.main()
