"""Folders that have a task list in place of a job list, by each verb."""

import os
import shutil
import unittest

from ramyearly import tables
from support import LISTING, PAIR, ROOT, InFolder, read, write

# One round of these tasks is document 01's example.
LEVELS = "2 10\n4 20\n"
TASKS = "# phase, period, deadline, cycles\n0 4 4 6\n\n2 4 1 4\n"
TASK_BYTES = bytes.fromhex("0200 00000000 04000000 02000000 04000000 04000000 06000000 01000000 04000000")
JOBS = "0 4 6\n2 3 4\n"
FORMS = {
    "tasks_txt": TASKS,
    "tasks_csv": b"\xef\xbb\xbfphase,period,deadline,cycles\r\n0,4,4,6\r\n2,4,1,4\r\n",
    "tasks_tbl": TASK_BYTES,
}


class TaskFolders(InFolder):
    def tasks(self, content=TASKS, **files):
        return self.site(tasks_txt=content, levels_txt=LEVELS, **files)

    def expect(self, words, status, printed, said=""):
        ended = self.run_command(*words)
        self.assertEqual((ended.returncode, ended.stdout, ended.stderr), (status, printed, said))


class Verbs(TaskFolders):
    def test_every_form_alike(self):
        for name, content in FORMS.items():
            site = self.site(levels_txt=LEVELS, **{name: content})
            self.expect([site], 0, LISTING)
            self.expect(["rounds", site], 0, f"# repeats every 4 ticks\n# jobs 2\n# release deadline cycles\n{JOBS}")
        # The text wins over the bytes, as in a job list.
        self.expect([self.tasks(tasks_tbl=b"")], 0, LISTING)

    def test_plan_and_check(self):
        site, other = self.tasks(), self.site(jobs_txt=JOBS, levels_txt=LEVELS)
        sizes = "jobs 2, intervals 3, steps 3, energy 2200"
        wrote = f"wrote {site}/plan.tbl and {site}/prices.tbl"
        self.expect(["plan", site], 0, f"{site}: {sizes}, repeats every 4 ticks; {wrote}\n")
        self.assertEqual(sorted(os.listdir(site)), ["levels.txt", "plan.tbl", "prices.tbl", "tasks.txt"])
        self.expect(["check", site], 0, f"{site}: accepted, energy 2200, repeats every 4 ticks\n")
        ordered = "jobs 2, intervals 3, steps 3, in order already, repeats every 4 ticks"
        self.expect(["order", site], 0, f"{site}: {ordered}; wrote {site}/ordered.tbl\n")
        ended = self.run_command("span", "0", "1", site)
        self.assertEqual((ended.returncode, ended.stderr), (0, ""))
        self.assertIn("is of one round, which repeats every 4 ticks; later rounds are not listed.\n\n1 job is open", ended.stdout)
        # The plan is that of the same jobs.
        self.assertEqual(self.run_command("plan", other).returncode, 0)
        for name in ("plan.tbl", "prices.tbl"):
            self.assertEqual(read(os.path.join(site, name)), read(os.path.join(other, name)))

    def test_no_tasks(self):
        site = self.tasks("# none\n")
        self.expect([site], 0, "sizes 0 0 0\nenergy 0\n")
        sizes = "jobs 0, intervals 0, steps 0, energy 0, repeats every 1 tick"
        self.expect(["plan", site], 0, f"{site}: {sizes}; wrote {site}/plan.tbl and {site}/prices.tbl\n")
        self.expect(["check", site], 0, f"{site}: accepted, energy 0, repeats every 1 tick\n")
        self.expect(["rounds", site], 0, "# repeats every 1 tick\n# jobs 0\n# release deadline cycles\n")

    def test_report(self):
        site = self.tasks()
        self.expect(["report", site], 0, f"{site}: wrote {site}/report.html\n")
        page = read(os.path.join(site, "report.html")).decode()
        self.assertIn("The round repeats every 4 ticks", page)
        self.assertIn("2,200", page)

    def test_several_folders(self):
        tasks, jobs, refused = self.tasks(), self.site(jobs_txt=JOBS, levels_txt=LEVELS), self.tasks("0 0 1 1\n")
        ended = self.run_command(tasks, refused, jobs)
        self.assertEqual(ended.returncode, 1)
        self.assertEqual(ended.stdout, f"# {tasks}\n{LISTING}# {refused}\nrefused 28 0\n# {jobs}\n{LISTING}")

    def test_encode_and_decode(self):
        for name, content in FORMS.items():
            site, out, text, again = self.site(levels_txt=LEVELS, **{name: content}), self.site(), self.site(), self.site()
            if name != "tasks_tbl":
                self.expect(["encode", site, out], 0, "")
                self.assertEqual(sorted(os.listdir(out)), ["levels.tbl", "tasks.tbl"])
                self.assertEqual(read(os.path.join(out, "tasks.tbl")), TASK_BYTES)
                self.assertEqual(read(os.path.join(out, "levels.tbl")), PAIR)
                site = out
            self.expect(["decode", "--csv", site, text], 0, "")
            self.assertEqual(read(os.path.join(text, "tasks.csv")), b"# tasks 2\nphase,period,deadline,cycles\n0,4,4,6\n2,4,1,4\n")
            self.expect(["encode", text, again], 0, "")
            self.assertEqual(read(os.path.join(again, "tasks.tbl")), TASK_BYTES)
        printed = "# tasks.tbl\n# tasks 2\n# phase period deadline cycles\n0 4 4 6\n2 4 1 4\n"
        self.expect(["decode", self.site(tasks_tbl=TASK_BYTES)], 0, printed)

    def test_rounds_to_a_folder(self):
        """A site without tasks comes out, which is planned as the one with tasks."""
        site, out = self.tasks(), self.site()
        self.expect(["rounds", site, out], 0, "")
        self.assertEqual(sorted(os.listdir(out)), ["jobs.tbl", "levels.tbl"])
        self.expect([out], 0, LISTING)
        only, out = self.site(tasks_txt=TASKS), self.site()
        self.expect(["rounds", only, out], 0, "")
        self.assertEqual(os.listdir(out), ["jobs.tbl"])
        jobs = self.site(jobs_txt=JOBS, levels_txt=LEVELS)
        self.expect(["rounds", jobs], 1, "", f"ramyearly: {jobs}: no task list (tasks.txt, tasks.csv, tasks.tbl)\n")
        self.expect(["rounds", site, out + "/x"], 2, "", f"ramyearly: {out}/x: no such folder\n")

    def test_examples(self):
        """A stretch without jobs is in the listing where it lies inside the round, and not where it is between two rounds."""
        for name, printed in (("rounds", "repeats every 60 ticks"), ("idle-rounds", "repeats every 80 ticks")):
            site = os.path.join(self.folder, name)
            shutil.copytree(os.path.join(ROOT, "examples", name), site)
            self.assertIn(printed, self.run_command("plan", site).stdout)
        spans = [line.split()[1:4] for line in read(os.path.join(site, "expected.txt")).decode().splitlines() if "span" in line]
        self.assertEqual([(start, end) for start, end, load in spans if load == "0"], [("20", "22"), ("28", "50")])
        self.assertEqual((spans[0][0], spans[-1][1]), ("10", "60"))


class Errors(TaskFolders):
    def test_two_lists(self):
        """A task list and a job list may disagree, in whatever form. No verb takes them."""
        there = "is there too, and a task list stands in place of a job list; keep one of them"
        for tasks, content in FORMS.items():
            for jobs in ("jobs.txt", "jobs.csv", "jobs.tbl"):
                site = self.site(levels_txt=LEVELS, **{tasks: content, jobs.replace(".", "_"): JOBS})
                said = f"{site}/{tasks.replace('_', '.')}: {jobs} {there}"
                self.expect(["plan", site], 1, "", f"ramyearly: {said}\n")
        # The last one has both in bytes.
        for words in ([], ["check"], ["order"], ["span", "0", "4"], ["nearest"], ["encode"], ["decode"], ["rounds"]):
            self.expect([*words, site], 1, "", f"ramyearly: {said}\n")
        self.assertEqual(sorted(os.listdir(site)), ["jobs.tbl", "levels.txt", "tasks.tbl"])
        self.expect(["report", site], 1, f"{site}: wrote {site}/report.html\n", f"ramyearly: {said}\n")
        self.assertIn(said, read(os.path.join(site, "report.html")).decode())

    def test_two_task_lists(self):
        site = self.tasks(tasks_csv=TASKS)
        self.expect([site], 1, "", f"ramyearly: {site}/tasks.csv: tasks.txt is there too; keep one of them\n")

    def test_no_second_list_is_written(self):
        site, jobs = self.tasks(), self.site(jobs_tbl=b"\0\0")
        there = "is there already, and a task list does not stand beside a job list"
        self.expect(["encode", site, jobs], 1, "", f"ramyearly: {jobs}/jobs.tbl: {there}\n")
        self.expect(["decode", self.site(tasks_tbl=TASK_BYTES), jobs], 1, "", f"ramyearly: {jobs}/jobs.tbl: {there}\n")
        there = "is there already, and a job list does not stand beside a task list"
        self.expect(["rounds", site, site], 1, "", f"ramyearly: {site}/tasks.txt: {there}\n")
        self.expect(["encode", self.site(jobs_txt=JOBS), site], 1, "", f"ramyearly: {site}/tasks.txt: {there}\n")
        self.assertEqual((os.listdir(jobs), sorted(os.listdir(site))), (["jobs.tbl"], ["levels.txt", "tasks.txt"]))

    def refuse(self, said, listed, verbs=("plan",), **files):
        """The verbs say why, and the listing prints the refusal as the listing program would."""
        site = self.site(levels_txt=LEVELS, **files)
        self.expect([site], 1, listed, f"ramyearly: {site}/{said}\n")
        for verb in verbs:
            self.expect([verb, site], 1, "", f"ramyearly: {site}/{said}\n")
        self.assertEqual(len(os.listdir(site)), 1 + len(files))

    def test_refusals(self):
        for content, said, listed in (
            ("0 4 4 6\n\n3 7 5 1\n", "tasks.txt line 3: phase 3 + deadline 5 is above the period 7 (refusal 28, entry 1)", "28 1"),
            ("# a\n0 0 1 1\n", "tasks.txt line 2: the period is 0 (refusal 28, entry 0)", "28 0"),
            ("0 1 1 1\n" * 17, "tasks.txt: 17 tasks, but a table has at most 16 (refusal 28)", "28 0"),
            (
                "0 1000 1 1\n# b\n0 1001 1 1\n",
                "tasks.txt line 3: the least common multiple of the periods 1000 and 1001 is above 1,000,000 (refusal 29)",
                "29 0",
            ),
            (
                "0 1 1 1\n0 1 1 1\n0 64 1 1\n",
                "tasks.txt line 3: with this task there are more than 64 jobs; the tasks before it make 2 in 1 tick (refusal 30)",
                "30 0",
            ),
        ):
            self.refuse(said, f"refused {listed}\n", tasks_txt=content)

    def test_refusals_of_bytes(self):
        bad = tables.to_bytes([(0, 4, 4, 6), (0, 4, 4, 0)], tables.TASKS)
        self.refuse("tasks.tbl: 0 bytes, but the sizes alone take 2 (refusal 28)", "refused 28 0\n", tasks_tbl=b"")
        said = "tasks.tbl: cycles 0 are not in range (1 to 1,000,000,000) (refusal 28, entry 1)"
        self.refuse(said, "refused 28 1\n", verbs=("plan", "check", "order", "rounds"), tasks_tbl=bad)
        site = self.site(levels_txt=LEVELS)
        os.mkdir(os.path.join(site, "tasks.tbl"))
        said = "Is a directory, so it counts as empty: 0 bytes, but the sizes alone take 2 (refusal 28)"
        self.expect(["plan", site], 1, "", f"ramyearly: {site}/tasks.tbl: {said}\n")

    def test_text_that_is_no_table(self):
        for content, said in (
            ("0 4 6\n", "3 columns, but a task has 4: phase, period, deadline, cycles"),
            ("0 4 x 6\n", "deadline 'x' is not a whole number"),
            ("0 4294967296 1 1\n", "period '4294967296' does not fit in 32 bits (0 to 4294967295)"),
        ):
            site = self.tasks(content)
            self.expect([site], 1, "", f"ramyearly: {site}/tasks.txt line 1: {said}\n")

    def test_refusals_of_the_jobs(self):
        """They are said to be in the lines of their tasks."""
        end = "than the top frequency gives (refusal 11, window 0 to"
        site = self.tasks("0 8 8 20\n\n# a\n0 4 2 7\n")
        said = f"overfull: from 0 to 8 jobs 0, 1 and 2 need 2 cycles more {end} 8, spare -2)"
        self.expect([site], 1, "overfull 0 8 -2\n", f"ramyearly: {site}/tasks.txt lines 1 and 4: {said}\n")
        site = self.tasks("1 8 4 17\n0 4 1 5\n")
        said = f"overfull: from 0 to 1 job 0 needs 1 cycle more {end} 1, spare -1)"
        self.expect(["plan", site], 1, "", f"ramyearly: {site}/tasks.txt line 2: {said}\n")
        site = self.tasks()
        self.assertEqual(self.run_command("plan", site).returncode, 0)
        write(os.path.join(site, "tasks.txt"), TASKS.replace("4 4 6", "4 4 7"))
        said = "tasks.txt line 2: the plan gives job 0 6 cycles, but it has 7 (refusal 19, job 0)"
        for verb in ("check", "order"):
            self.expect([verb, site], 1, "", f"ramyearly: {site}/{said}\n")
        write(os.path.join(site, "tasks.txt"), TASKS.replace("4 4 6", "4 4 3"))
        said = "plan.tbl: 4 cycles of job 0 in interval 0, but the job has 3 (refusal 18, step 0)"
        self.expect(["span", "0", "1", site], 1, "", f"ramyearly: {site}/{said}\n")


if __name__ == "__main__":
    unittest.main()
