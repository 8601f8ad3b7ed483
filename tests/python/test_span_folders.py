"""What touches a span of ticks, of folders with a plan: each sentence that is printed, and what is said where there is none."""

import os
import shutil
import unittest

from support import BACKWARDS, PAIR, PLAN, PRICES, ROOT, TWO_JOBS, InFolder, read

LEVELS = "2 10\n4 20\n"
JOBS = "# release, deadline, cycles\n0 4 6\n\n2 3 4\n"
TASKS = "0 4 4 6\n# in each period\n2 4 1 4\n"

FROM_1_TO_3 = """\
%s: from tick 1 up to, but not including, tick 3 (2 ticks)
%s
2 jobs are open somewhere in it (jobs are numbered from 0):
%s
1 job lies wholly inside it: job 1.

2 steps of the plan have intervals that share a tick with it; the cycles run between from and to:
  from  to  job  cycles
     0   2    0       4
     2   3    1       4

The nearest deadline at or after tick 1 is tick 3, of job 1.
"""
OPEN = "  job  release  deadline  cycles\n    0        0         4       6\n    1        2         3       4\n"
OPEN_BY_LINE = """\
  job  release  deadline  cycles  %s line
    0        0         4       6              %d
    1        2         3       4              %d
"""
NOTHING = """\
%s: from tick %s up to, but not including, tick %s (%s)

No job is open in it.

No job lies wholly inside it.

No step of the plan has an interval that shares a tick with it.

%s
"""


class SpanFolders(InFolder):
    def planned(self, **files):
        """A site with a plan, in bytes where nothing else is given."""
        return self.site(**{"jobs_tbl": TWO_JOBS, "plan_tbl": PLAN, **files})

    def expect(self, words, status, printed, said=""):
        ended = self.run_command("span", *words)
        self.assertEqual((ended.returncode, ended.stdout, ended.stderr), (status, printed, said))

    def contents(self, folder):
        return {name: read(os.path.join(folder, name)) for name in os.listdir(folder)}


class Printed(SpanFolders):
    def test_every_form_alike(self):
        for files, table in (
            ({"jobs_tbl": TWO_JOBS}, OPEN),
            ({"jobs_txt": JOBS}, OPEN_BY_LINE % ("jobs.txt", 2, 4)),
            ({"jobs_csv": "release,deadline,cycles\n0,4,6\n2,3,4\n"}, OPEN_BY_LINE % ("jobs.csv", 2, 3)),
            ({"jobs_txt": "0 4 6\n2 3 4\n", "jobs_tbl": b""}, OPEN_BY_LINE % ("jobs.txt", 1, 2)),
        ):
            for plan in (PLAN, BACKWARDS):
                site = self.site(levels_txt=LEVELS, plan_tbl=plan, prices_tbl=PRICES, **files)
                before = self.contents(site)
                self.expect(["1", "3", site], 0, FROM_1_TO_3 % (site, "", table))
                self.assertEqual(self.contents(site), before, "nothing is written")

    def test_tasks(self):
        """The jobs are those of one round, and are said to be in the lines of their tasks."""
        repeats = "All that follows is of one round, which repeats every 4 ticks; later rounds are not listed.\n"
        table = OPEN_BY_LINE.replace("              %d", "               %d") % ("tasks.txt", 1, 3)
        site = self.site(tasks_txt=TASKS, plan_tbl=PLAN)
        self.expect(["1", "3", site], 0, FROM_1_TO_3 % (site, repeats, table))
        site = self.site(tasks_tbl=bytes.fromhex("0000"), plan_tbl=bytes(4))
        printed = (NOTHING % (site, "1", "3", "2 ticks", "There is no deadline at or after tick 1.")).replace(
            ")\n", ")\n" + repeats.replace("4 ticks", "1 tick"), 1
        )
        self.expect(["1", "3", site], 0, printed)

    def test_without_levels(self):
        """Levels have no part in it: neither a level list that is missing nor one that is no table is looked at."""
        for files in ({}, {"levels_txt": "2 x\n"}, {"levels_tbl": b"\1"}, {"levels_txt": LEVELS, "levels_csv": LEVELS}):
            site = self.planned(**files)
            self.expect(["1", "3", site], 0, FROM_1_TO_3 % (site, "", OPEN))

    def test_nothing(self):
        site = self.planned()
        at_the_start = "The nearest deadline at or after tick 4 is tick 4, of job 0."
        self.expect(["4", "5", site], 0, NOTHING % (site, "4", "5", "1 tick", at_the_start))
        none = "There is no deadline at or after tick %s."
        self.expect(["5", "7", site], 0, NOTHING % (site, "5", "7", "2 ticks", none % "5"))
        long = NOTHING % (site, "5", "1,000,000", "999,995 ticks", none % "5")
        self.expect(["5", "1_000_000", site], 0, long)
        site = self.planned(jobs_tbl=b"\0\0", plan_tbl=bytes(4))
        self.expect(["0", "1", site], 0, NOTHING % (site, "0", "1", "1 tick", none % "0"))

    def test_one_and_many(self):
        """One job, one step; and the nearest deadline of several jobs, past the end of the span."""
        jobs = "10 2_000 1_234_567\n1_500 3_000 5\n999 2_000 7\n"
        site = self.planned(jobs_txt=jobs, plan_tbl=bytes.fromhex("0400 0200 0000 4200 40420f00 07000000"))
        self.expect(
            ["20", "30", site],
            0,
            f"""\
{site}: from tick 20 up to, but not including, tick 30 (10 ticks)

1 job is open somewhere in it (jobs are numbered from 0):
  job  release  deadline     cycles  jobs.txt line
    0       10     2,000  1,234,567              1

No job lies wholly inside it.

1 step of the plan has an interval that shares a tick with it; the cycles run between from and to:
  from   to  job     cycles
    10  999    0  1,000,000

The nearest deadline at or after tick 20 is tick 2,000, of jobs 0 and 2.
""",
        )
        ended = self.run_command("span", "10", "3000", site)
        self.assertIn("\n3 jobs lie wholly inside it: jobs 0, 1 and 2.\n", ended.stdout)

    def test_several_folders(self):
        """An empty line follows each. The work goes on after one that is refused, and the worst status is the command's."""
        sites = [self.planned(), self.planned(plan_tbl=b""), self.planned(jobs_txt=JOBS)]
        first = FROM_1_TO_3 % (sites[0], "", OPEN) + "\n"
        last = FROM_1_TO_3 % (sites[2], "", OPEN_BY_LINE % ("jobs.txt", 2, 4)) + "\n"
        self.expect(["1", "3", sites[0], sites[2]], 0, first + last)
        said = f"ramyearly: {sites[1]}/plan.tbl: 0 bytes, but the sizes alone take 4 (refusal 15)\n"
        self.expect(["1", "3", *sites], 1, first + last, said)
        missing = self.folder + "/none"
        self.expect(["1", "3", missing, sites[0]], 2, first, f"ramyearly: {missing}: no such folder\n")

    def test_after_planning(self):
        site = self.site(jobs_txt=JOBS, levels_txt=LEVELS)
        self.assertEqual(self.run_command("plan", site).returncode, 0)
        self.expect(["1", "3", site], 0, FROM_1_TO_3 % (site, "", OPEN_BY_LINE % ("jobs.txt", 2, 4)))
        # An ordered plan is not what is read, and may stand in its place.
        self.assertEqual(self.run_command("order", site).returncode, 0)
        os.replace(os.path.join(site, "ordered.tbl"), os.path.join(site, "plan.tbl"))
        self.expect(["1", "3", site], 0, FROM_1_TO_3 % (site, "", OPEN_BY_LINE % ("jobs.txt", 2, 4)))

    def test_the_example(self):
        site = os.path.join("examples", "lift-closure")
        printed = read(os.path.join(ROOT, site, "expected-span.txt")).decode()
        ended = self.run_command("span", "245", "300", site, cwd=ROOT)
        self.assertEqual((ended.returncode, ended.stdout, ended.stderr), (0, printed, ""))
        # Its plan is the one that planning writes.
        copy = os.path.join(self.folder, "copy")
        shutil.copytree(os.path.join(ROOT, site), copy)
        self.assertEqual(self.run_command("plan", copy).returncode, 0)
        self.assertEqual(self.contents(copy), self.contents(os.path.join(ROOT, site)))


class Refused(SpanFolders):
    def test_no_plan(self):
        for files in ({"jobs_tbl": TWO_JOBS}, {"jobs_txt": JOBS, "levels_txt": LEVELS}, {"tasks_txt": TASKS}):
            site = self.site(**files)
            said = f"{site}/plan.tbl: there is no plan; plan first (ramyearly plan {site})"
            self.expect(["1", "3", site], 1, "", f"ramyearly: {said}\n")
            self.assertEqual(len(os.listdir(site)), len(files))

    def test_no_jobs(self):
        for files in ({}, {"plan_tbl": PLAN}, {"plan_tbl": PLAN, "levels_txt": LEVELS}):
            site = self.site(**files)
            said = f"{site}: no job list and no task list (jobs.txt or tasks.txt; --help says more)"
            self.expect(["1", "3", site], 1, "", f"ramyearly: {said}\n")

    def test_files_that_cannot_be_read(self):
        counts = "Is a directory, so it counts as empty: 0 bytes, but the sizes alone take"
        for name, said in (("plan.tbl", f"{counts} 4 (refusal 15)"), ("jobs.tbl", f"{counts} 2 (refusal 6)")):
            site = self.planned()
            os.remove(os.path.join(site, name))
            os.mkdir(os.path.join(site, name))
            self.expect(["1", "3", site], 1, "", f"ramyearly: {site}/{name}: {said}\n")

    def test_text_that_is_no_table(self):
        site = self.planned(jobs_txt="0 4 6\n2 x 4\n")
        self.expect(["1", "3", site], 1, "", f"ramyearly: {site}/jobs.txt line 2: deadline 'x' is not a whole number\n")
        site = self.planned(jobs_txt=JOBS, jobs_csv="")
        self.expect(["1", "3", site], 1, "", f"ramyearly: {site}/jobs.csv: jobs.txt is there too; keep one of them\n")

    def test_refusals(self):
        """Of the jobs and the tasks with their lines, and of the plan."""
        for files, said in (
            ({"jobs_txt": "# late\n0 4 6\n5 4 1\n"}, "jobs.txt line 3: release 5 is not before deadline 4 (refusal 9, entry 1)"),
            ({"plan_tbl": PLAN[:-1]}, "plan.tbl: 21 bytes, but steps number 3, which takes 22 (refusal 15)"),
            ({"jobs_txt": "0 4 6\n"}, "plan.tbl: 3 intervals, but the jobs make 1 (refusal 16)"),
            ({"jobs_txt": "0 4 6\n2 3 1\n"}, "plan.tbl: 4 cycles of job 1 in interval 1, but the job has 1 (refusal 18, step 1)"),
            ({"jobs_txt": "0 3 6\n2 4 4\n"}, "plan.tbl: job 0 is not open in interval 2 (refusal 17, step 2)"),
        ):
            site = self.planned(**files)
            self.expect(["1", "3", site], 1, "", f"ramyearly: {site}/{said}\n")
        site = self.site(tasks_txt="0 4 4 6\n\n2 0 1 4\n", plan_tbl=PLAN)
        self.expect(["1", "3", site], 1, "", f"ramyearly: {site}/tasks.txt line 3: the period is 0 (refusal 28, entry 1)\n")

    def test_a_plan_that_the_check_refuses(self):
        """What the steps add to is no matter."""
        site = self.site(jobs_tbl=TWO_JOBS, levels_tbl=PAIR, plan_tbl=bytes.fromhex("0300 0000"), prices_tbl=PRICES)
        self.assertEqual(self.run_command("check", site).returncode, 1)
        ended = self.run_command("span", "1", "3", site)
        self.assertEqual((ended.returncode, ended.stderr), (0, ""))
        self.assertIn("\nNo step of the plan has an interval that shares a tick with it.\n", ended.stdout)

    def test_wrong_spans(self):
        """Said once, before a folder is looked at."""
        for start, end, said in (
            ("3", "3", "start 3 is not before end 3"),
            ("3", "1", "start 3 is not before end 1"),
            ("0", "1000001", "end 1000001 is above 1,000,000"),
            ("4_294_967_295", "4294967295", "start 4294967295 is not before end 4294967295"),
        ):
            for folders in ([self.planned()], [self.planned(), self.site()], [self.site(jobs_txt="x\n")]):
                self.expect([start, end, *folders], 1, "", f"ramyearly: {said} (refusal 33)\n")

    def test_wrong_usage(self):
        site = self.planned()
        for words, said in (
            (["x", "3", site], "argument START: tick 'x' is not a whole number"),
            (["1", "3.5", site], "argument END: tick '3.5' is not a whole number"),
            (["1", "", site], "argument END: tick is empty"),
            (["-1", "3", site], "argument START: tick '-1' does not fit in 32 bits (0 to 4294967295)"),
            (["1", "4294967296", site], "argument END: tick '4294967296' does not fit in 32 bits (0 to 4294967295)"),
            ([site, "1", "3"], f"argument START: tick '{site}' is not a whole number"),
            ([], "the following arguments are required: START, END, DIR"),
            (["1", "3"], "the following arguments are required: DIR"),
        ):
            ended = self.run_command("span", *words)
            self.assertEqual((ended.returncode, ended.stdout), (2, ""))
            self.assertEqual(ended.stderr.splitlines()[-1], f"ramyearly span: error: {said}")
            self.assertIn("usage: ramyearly span [-h] [--free N] [--margin N] START END DIR", " ".join(ended.stderr.split()))

    def test_folders(self):
        missing, file = self.folder + "/none", os.path.join(self.planned(), "jobs.tbl")
        self.expect(["1", "3", missing], 2, "", f"ramyearly: {missing}: no such folder\n")
        self.expect(["1", "3", file], 2, "", f"ramyearly: {file}: not a folder\n")


if __name__ == "__main__":
    unittest.main()
