"""Folders whose plan is written with its steps in cell order, and the text of such a plan."""

import os
import shutil
import unittest

from support import BACKWARDS, PAIR, PLAN, PRICES, ROOT, TWO_JOBS, InFolder, read, write

# Document 01's plan with its steps job by job.
BY_JOB = bytes.fromhex("0300 0300 0000 8000 4100 04000000 02000000 04000000")
SIZES = "jobs 2, intervals 3, steps 3"
TEXT = "# intervals 3, steps 3\n# interval job cycles\n0 0 4\n1 1 4\n2 0 2\n"
LEVELS = "2 10\n4 20\n"
JOBS = "0 4 6\n2 3 4\n"
FORMS = (
    {"levels_tbl": PAIR, "jobs_tbl": TWO_JOBS},
    {"levels_txt": LEVELS, "jobs_txt": JOBS},
    {"levels_csv": "2,10\n4,20\n", "jobs_csv": "release,deadline,cycles\n0,4,6\n2,3,4\n"},
    {"levels_txt": LEVELS, "jobs_txt": JOBS, "levels_tbl": b"", "jobs_tbl": b""},
    {"levels_txt": "0 0\n" + LEVELS, "jobs_txt": JOBS},
)


class PlanFolders(InFolder):
    def planned(self, plan=BACKWARDS, **files):
        """A site with a plan and its prices."""
        return self.site(**{**FORMS[0], "plan_tbl": plan, "prices_tbl": PRICES, **files})

    def expect(self, words, status, printed, said=""):
        ended = self.run_command(*words)
        self.assertEqual((ended.returncode, ended.stdout, ended.stderr), (status, printed, said))

    def contents(self, folder):
        return {name: read(os.path.join(folder, name)) for name in os.listdir(folder)}


class Ordering(PlanFolders):
    def test_every_form_alike(self):
        for form in FORMS:
            for plan in (BACKWARDS, BY_JOB):
                site = self.site(plan_tbl=plan, prices_tbl=PRICES, **form)
                before = self.contents(site)
                self.expect(["order", site], 0, f"{site}: {SIZES}; wrote {site}/ordered.tbl\n")
                self.assertEqual(self.contents(site), {**before, "ordered.tbl": PLAN})

    def test_tasks(self):
        site = self.site(levels_txt=LEVELS, tasks_txt="0 4 4 6\n2 4 1 4\n", plan_tbl=BACKWARDS, prices_tbl=PRICES)
        self.expect(["order", site], 0, f"{site}: {SIZES}, repeats every 4 ticks; wrote {site}/ordered.tbl\n")
        self.assertEqual(read(os.path.join(site, "ordered.tbl")), PLAN)
        self.assertNotIn("jobs.tbl", os.listdir(site))

    def test_in_order_already(self):
        site = self.planned(PLAN)
        self.expect(["order", site], 0, f"{site}: {SIZES}, in order already; wrote {site}/ordered.tbl\n")
        self.assertEqual(read(os.path.join(site, "ordered.tbl")), PLAN)
        # What planning writes is.
        site = self.site(**FORMS[1])
        self.assertEqual(self.run_command("plan", site).returncode, 0)
        self.expect(["order", site], 0, f"{site}: {SIZES}, in order already; wrote {site}/ordered.tbl\n")

    def test_no_jobs(self):
        site = self.planned(bytes(4), jobs_tbl=b"\0\0", prices_tbl=b"\0\0")
        sizes = "jobs 0, intervals 0, steps 0, in order already"
        self.expect(["order", site], 0, f"{site}: {sizes}; wrote {site}/ordered.tbl\n")
        self.assertEqual(read(os.path.join(site, "ordered.tbl")), bytes(4))

    def test_twice(self):
        """The plan is read from plan.tbl again, and what stood in ordered.tbl is no matter."""
        site = self.planned()
        for _ in range(2):
            self.expect(["order", site], 0, f"{site}: {SIZES}; wrote {site}/ordered.tbl\n")
            self.assertEqual(read(os.path.join(site, "ordered.tbl")), PLAN)
        write(os.path.join(site, "ordered.tbl"), "an older one")
        self.expect(["order", site], 0, f"{site}: {SIZES}; wrote {site}/ordered.tbl\n")
        self.assertEqual(self.contents(site), self.contents(self.planned(ordered_tbl=PLAN)))

    def test_in_place_of_the_plan(self):
        """The check takes it with the same prices, and answers the same figure."""
        site = self.planned()
        self.expect(["check", site], 0, f"{site}: accepted, energy 2200\n")
        self.assertEqual(self.run_command("order", site).returncode, 0)
        os.replace(os.path.join(site, "ordered.tbl"), os.path.join(site, "plan.tbl"))
        self.expect(["check", site], 0, f"{site}: accepted, energy 2200\n")
        self.expect(["order", site], 0, f"{site}: {SIZES}, in order already; wrote {site}/ordered.tbl\n")

    def test_elsewhere(self):
        site, out = self.planned(), self.site()
        before = self.contents(site)
        self.expect(["order", site, "-o", out], 0, f"{site}: {SIZES}; wrote {out}/ordered.tbl\n")
        self.assertEqual((self.contents(site), self.contents(out)), (before, {"ordered.tbl": PLAN}))
        self.expect(["order", site, "-o", out + "/x"], 2, "", f"ramyearly: {out}/x: no such folder\n")
        self.expect(["order", site, "-o", out + "/ordered.tbl"], 2, "", f"ramyearly: {out}/ordered.tbl: not a folder\n")
        ended = self.run_command("order", site, site, "-o", out)
        self.assertEqual((ended.returncode, ended.stdout), (2, ""))
        self.assertIn("-o takes one site, or the plans would be written over each other", ended.stderr)

    def test_several_folders(self):
        """The work goes on after one that is refused, and the worst status is the command's."""
        sites = [self.planned(BACKWARDS), self.planned(b""), self.planned(BY_JOB)]
        printed = "".join(f"{site}: {SIZES}; wrote {site}/ordered.tbl\n" for site in sites[::2])
        said = f"ramyearly: {sites[1]}/plan.tbl: 0 bytes, but the sizes alone take 4 (refusal 15)\n"
        self.expect(["order", *sites], 1, printed, said)
        self.assertEqual(*(read(os.path.join(site, "ordered.tbl")) for site in sites[::2]))
        missing = self.folder + "/none"
        self.expect(["order", missing, sites[0]], 2, printed.splitlines(True)[0], f"ramyearly: {missing}: no such folder\n")

    def test_examples(self):
        """One plan in two spellings. Its text is the one that stands beside each."""
        written = []
        for name in ("steps-by-job", "steps-backwards"):
            site = os.path.join(self.folder, name)
            shutil.copytree(os.path.join(ROOT, "examples", name), site)
            sizes = "jobs 4, intervals 5, steps 6"
            self.expect(["order", site], 0, f"{site}: {sizes}; wrote {site}/ordered.tbl\n")
            self.expect(["decode", site, self.site(name=name + " text")], 0, "")
            text = read(os.path.join(self.folder, name + " text", "ordered.txt"))
            self.assertEqual(text, read(os.path.join(site, "expected-ordered.txt")))
            written.append([read(os.path.join(site, file)) for file in ("plan.tbl", "ordered.tbl")])
        (first, one), (second, other) = written
        self.assertNotEqual(first, second)
        self.assertEqual(one, other)


class NothingWritten(PlanFolders):
    """A site that is refused keeps the ordered plan that it has, or none."""

    def refuse(self, site, said):
        for older in ({}, {"ordered.tbl": b"an older one"}):
            for name, content in older.items():
                write(os.path.join(site, name), content)
            before = self.contents(site)
            self.expect(["order", site], 1, "", f"ramyearly: {said}\n")
            self.assertEqual(self.contents(site), before)

    def test_no_plan(self):
        empty = "No such file or directory, so it counts as empty: 0 bytes, but the sizes alone take"
        site = self.site(**FORMS[1])
        self.refuse(site, f"{site}/plan.tbl: {empty} 4 (refusal 15)")
        site = self.site(prices_tbl=PRICES, **FORMS[1])
        self.refuse(site, f"{site}/plan.tbl: {empty} 4 (refusal 15)")
        site = self.site(plan_tbl=BACKWARDS, **FORMS[1])
        self.refuse(site, f"{site}/prices.tbl: {empty} 2 (refusal 21)")

    def test_no_tables(self):
        site = self.site(plan_tbl=BACKWARDS, prices_tbl=PRICES)
        names = "jobs.txt or tasks.txt, levels.txt"
        self.refuse(site, f"{site}: no job list, no task list and no level list ({names}; --help says more)")

    def test_a_plan_of_other_jobs(self):
        site = self.planned(jobs_txt="# later\n0 4 7\n2 3 4\n")
        self.refuse(site, f"{site}/jobs.txt line 2: the plan gives job 0 6 cycles, but it has 7 (refusal 19, job 0)")

    def test_text_that_is_no_table(self):
        site = self.planned(levels_txt="2 10\n4 x\n")
        self.refuse(site, f"{site}/levels.txt line 2: voltage 'x' is not a whole number")

    def test_tasks(self):
        site = self.site(levels_txt=LEVELS, tasks_txt="0 4 4 6\n\n2 0 1 4\n", plan_tbl=BACKWARDS, prices_tbl=PRICES)
        self.refuse(site, f"{site}/tasks.txt line 3: the period is 0 (refusal 28, entry 1)")


class Text(PlanFolders):
    def test_decode(self):
        """An ordered plan is shown as a plan is."""
        site = self.site(plan_tbl=BACKWARDS, ordered_tbl=PLAN)
        plan = "# intervals 3, steps 3\n# interval job cycles\n2 0 2\n1 1 4\n0 0 4\n"
        self.expect(["decode", site], 0, f"# plan.tbl\n{plan}# ordered.tbl\n{TEXT}")
        self.expect(["decode", self.site(ordered_tbl=PLAN)], 0, f"# ordered.tbl\n{TEXT}")
        csv = "# intervals 3, steps 3\ninterval,job,cycles\n0,0,4\n1,1,4\n2,0,2\n"
        self.expect(["decode", "--csv", self.site(ordered_tbl=PLAN)], 0, f"# ordered.tbl\n{csv}")

    def test_to_a_folder(self):
        site, out = self.site(ordered_tbl=PLAN), self.site()
        self.expect(["decode", site, out], 0, "")
        self.assertEqual(self.contents(out), {"ordered.txt": TEXT.encode()})
        said = f"ramyearly: {out}/ordered.txt: is there already, and is not written over\n"
        self.expect(["decode", site, out], 1, "", said)

    def test_wrong_length(self):
        site = self.site(ordered_tbl=PLAN[:-1])
        said = f"ramyearly: {site}/ordered.tbl: 21 bytes, but steps number 3, which takes 22\n"
        self.expect(["decode", site], 1, "", said)


if __name__ == "__main__":
    unittest.main()
