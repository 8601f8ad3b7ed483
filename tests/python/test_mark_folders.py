"""Folders with a mark list, by each verb: its forms, what a missing one means, and what is said of one that is refused."""

import os
import shutil
import unittest

from ramyearly import tables
from support import LISTING, PAIR, PLAN, PRICES, ROOT, TWO_JOBS, InFolder, read, write

LEVELS = "2 10\n4 20\n"
JOBS = "0 4 6\n2 3 4\n"
TASKS = "0 4 4 6\n2 4 1 4\n"
# Of these only the first has an effect.
MARKS = "# the handovers\n\n 1   # the first\n3\n1_000\n"
MARK_BYTES = bytes.fromhex("0300 01000000 03000000 e8030000")
FORMS = {
    "marks_txt": MARKS,
    "marks_csv": b"\xef\xbb\xbftick\r\n1\r\n3\r\n1000\r\n",
    "marks_tbl": MARK_BYTES,
}
CUT_LISTING = """\
sizes 2 4 4
span 0 1 2 1 2 2 1
span 1 2 2 1 2 2 1
span 2 3 4 2 2 2 2
span 3 4 2 1 2 2 1
step 0 0 2
step 1 0 2
step 2 1 4
step 3 0 2
energy 2200
"""
CUT_PLAN = bytes.fromhex("0400 0400 0000 4000 8100 c000 02000000 02000000 04000000 02000000")
CUT_PRICES = bytes.fromhex("0400 01000000 02000000 03000000 04000000 01 01 02 01")
SIZES = "jobs 2, marks 3, intervals 4, steps 4"


class MarkFolders(InFolder):
    def marked(self, content=MARKS, **files):
        return self.site(**{"jobs_txt": JOBS, "levels_txt": LEVELS, "marks_txt": content, **files})

    def expect(self, words, status, printed, said=""):
        ended = self.run_command(*words)
        self.assertEqual((ended.returncode, ended.stdout, ended.stderr), (status, printed, said))

    def expect_planned(self, site, sizes=SIZES, repeats=""):
        """The plan with the first mark, by each verb that has to do with plans."""
        self.expect([site], 0, CUT_LISTING)
        wrote = f"wrote {site}/plan.tbl and {site}/prices.tbl"
        self.expect(["plan", site], 0, f"{site}: {sizes}, energy 2200{repeats}; {wrote}\n")
        files = [read(os.path.join(site, name)) for name in ("plan.tbl", "prices.tbl")]
        self.assertEqual(files, [CUT_PLAN, CUT_PRICES])
        self.expect(["check", site], 0, f"{site}: accepted, energy 2200{repeats}\n")
        self.expect(["fits", site], 0, f"{site}: plan.tbl fits, energy 2200{repeats}\n")
        self.expect(["order", site], 0, f"{site}: {sizes}, in order already{repeats}; wrote {site}/ordered.tbl\n")
        self.assertEqual(read(os.path.join(site, "ordered.tbl")), CUT_PLAN)
        touched = self.run_command("span", "1", "2", site)
        self.assertEqual((touched.returncode, touched.stderr), (0, ""))
        self.assertIn("  from  to  job  cycles\n     1   2    0       2\n", touched.stdout)
        self.expect(["report", site], 0, f"{site}: wrote {site}/report.html\n")
        self.assertIn(b"handover at 1<", read(os.path.join(site, "report.html")))


class Verbs(MarkFolders):
    def test_every_form_alike(self):
        for name, content in FORMS.items():
            self.expect_planned(self.site(jobs_txt=JOBS, levels_txt=LEVELS, **{name: content}))
            self.expect_planned(self.site(jobs_tbl=TWO_JOBS, levels_tbl=PAIR, **{name: content}))
        # The text wins over the bytes.
        self.expect_planned(self.marked(marks_tbl=b"\1"))

    def test_tasks(self):
        """Marks are ticks of one round."""
        for name, content in FORMS.items():
            site = self.site(tasks_txt=TASKS, levels_txt=LEVELS, **{name: content})
            self.expect_planned(site, repeats=", repeats every 4 ticks")

    def test_no_marks(self):
        """A missing, an empty or an unreadable marks.tbl means none, and so does a text without entries."""
        sites = [
            self.site(jobs_txt=JOBS, levels_txt=LEVELS),
            self.site(jobs_txt=JOBS, levels_txt=LEVELS, marks_tbl=b""),
            self.site(jobs_txt=JOBS, levels_txt=LEVELS, marks_tbl=b"\0\0"),
            self.site(jobs_txt=JOBS, levels_txt=LEVELS),
            self.site(jobs_txt=JOBS, levels_txt=LEVELS),
            self.marked(""),
            self.marked("# none\n\ntick\n"),
            self.marked("", marks_tbl=MARK_BYTES),
        ]
        os.mkdir(os.path.join(sites[3], "marks.tbl"))
        os.symlink("nowhere", os.path.join(sites[4], "marks.tbl"))
        for site in sites:
            self.expect([site], 0, LISTING)
            sizes = "jobs 2, intervals 3, steps 3"
            wrote = f"wrote {site}/plan.tbl and {site}/prices.tbl"
            self.expect(["plan", site], 0, f"{site}: {sizes}, energy 2200; {wrote}\n")
            self.assertEqual(read(os.path.join(site, "plan.tbl")), PLAN)
            self.expect(["check", site], 0, f"{site}: accepted, energy 2200\n")
            self.expect(["order", site], 0, f"{site}: {sizes}, in order already; wrote {site}/ordered.tbl\n")
            self.assertIn("     0   2    0       4\n", self.run_command("span", "1", "2", site).stdout)
            self.expect(["report", site], 0, f"{site}: wrote {site}/report.html\n")

    def test_marks_without_effect(self):
        """They are counted, and the plan is that without them."""
        site = self.marked("0\n2\n3\n4\n4_294_967_295\n")
        self.expect([site], 0, LISTING)
        wrote = f"wrote {site}/plan.tbl and {site}/prices.tbl"
        self.expect(["plan", site], 0, f"{site}: jobs 2, marks 5, intervals 3, steps 3, energy 2200; {wrote}\n")
        self.assertEqual([read(os.path.join(site, name)) for name in ("plan.tbl", "prices.tbl")], [PLAN, PRICES])
        site = self.marked(jobs_txt="")
        self.expect([site], 0, "sizes 0 0 0\nenergy 0\n")

    def test_an_overfull_site(self):
        site = self.marked(jobs_txt="0 1 5\n3 9 1\n")
        said = "overfull: from 0 to 1 job 0 needs 1 cycle more than the top frequency gives (refusal 11, window 0 to 1, spare -1)"
        self.expect([site], 1, "overfull 0 1 -1\n", f"ramyearly: {site}/jobs.txt line 1: {said}\n")

    def test_after_the_marks_have_changed(self):
        """A plan goes with the marks that it was made with."""
        site = self.marked()
        self.assertEqual(self.run_command("plan", site).returncode, 0)
        write(os.path.join(site, "marks.txt"), "3\n")
        said = "plan.tbl: 4 intervals, but the jobs and the marks make 3 (refusal 16)"
        for words in (["check"], ["order"], ["span", "0", "4"]):
            self.expect([*words, site], 1, "", f"ramyearly: {site}/{said}\n")
        os.remove(os.path.join(site, "marks.txt"))
        said = "plan.tbl: 4 intervals, but the jobs make 3 (refusal 16)"
        self.expect(["check", site], 1, "", f"ramyearly: {site}/{said}\n")
        write(os.path.join(site, "marks.tbl"), bytes.fromhex("0100 01000000"))
        self.expect(["check", site], 0, f"{site}: accepted, energy 2200\n")

    def test_the_example(self):
        """The last mark has no effect, and the figure is the same without any."""
        site = os.path.join(self.folder, "handover")
        shutil.copytree(os.path.join(ROOT, "examples", "handover"), site)
        self.assertIn("jobs 8, marks 3, intervals 14, steps 15, energy 9551190000;", self.run_command("plan", site).stdout)
        os.remove(os.path.join(site, "marks.txt"))
        self.assertIn("jobs 8, intervals 12, steps 13, energy 9551190000;", self.run_command("plan", site).stdout)


class Tables(MarkFolders):
    TEXT = "# marks 3\n# tick\n1\n3\n1000\n"

    def test_encode_and_decode(self):
        for name in ("marks_txt", "marks_csv"):
            site, text, again = self.site(**{name: FORMS[name]}), self.site(), self.site()
            self.expect(["encode", site], 0, "")
            self.assertEqual(read(os.path.join(site, "marks.tbl")), MARK_BYTES)
            self.expect(["decode", "--csv", site, text], 0, "")
            self.assertEqual(read(os.path.join(text, "marks.csv")), b"# marks 3\ntick\n1\n3\n1000\n")
            self.expect(["encode", text, again], 0, "")
            self.assertEqual(read(os.path.join(again, "marks.tbl")), MARK_BYTES)
        self.expect(["decode", self.site(marks_tbl=MARK_BYTES)], 0, f"# marks.tbl\n{self.TEXT}")
        # An empty file means no marks, and an empty text too.
        self.expect(["decode", self.site(marks_tbl=b"")], 0, "# marks.tbl\n# marks 0\n# tick\n")
        site = self.site(marks_txt="")
        self.expect(["encode", site], 0, "")
        self.assertEqual(read(os.path.join(site, "marks.tbl")), b"\0\0")

    def test_beside_the_other_tables(self):
        site, out = self.marked(), self.site()
        self.expect(["encode", site, out], 0, "")
        self.assertEqual(sorted(os.listdir(out)), ["jobs.tbl", "levels.tbl", "marks.tbl"])
        self.expect_planned(out)
        ended = self.run_command("decode", out)
        self.assertTrue(ended.stdout.startswith("# jobs.tbl\n# jobs 2\n"))
        self.assertIn(f"2 3 4\n# marks.tbl\n{self.TEXT}# levels.tbl\n", ended.stdout)

    def test_wrong_lengths(self):
        for data, said in (
            (b"\1", "1 byte, but the sizes alone take 2"),
            (MARK_BYTES[:-1], "13 bytes, but marks number 3, which takes 14"),
        ):
            site = self.site(marks_tbl=data)
            self.expect(["decode", site], 1, "", f"ramyearly: {site}/marks.tbl: {said}\n")

    def test_rounds(self):
        """The marks of the round are written with its jobs, in every form."""
        for name, content in FORMS.items():
            site, out = self.site(tasks_txt=TASKS, levels_txt=LEVELS, **{name: content}), self.site()
            self.expect(["rounds", site, out], 0, "")
            self.assertEqual(sorted(os.listdir(out)), ["jobs.tbl", "levels.tbl", "marks.tbl"])
            self.assertEqual(read(os.path.join(out, "marks.tbl")), MARK_BYTES)
            self.expect_planned(out)
        for files in ({}, {"marks_tbl": b""}):
            out = self.site()
            self.expect(["rounds", self.site(tasks_txt=TASKS, levels_txt=LEVELS, **files), out], 0, "")
            self.assertEqual(sorted(os.listdir(out)), ["jobs.tbl", "levels.tbl"])
            # The marks of another site, written there before, do not stay.
            write(os.path.join(out, "marks.tbl"), MARK_BYTES)
            self.expect(["rounds", self.site(tasks_txt=TASKS, levels_txt=LEVELS, **files), out], 0, "")
            self.assertEqual(read(os.path.join(out, "marks.tbl")), b"\0\0")

    def test_text_that_is_no_table(self):
        for content, line, said in (
            ("1\nx\n", 2, "tick 'x' is not a whole number"),
            ("# a\n1 2\n", 2, "2 columns, but a mark has 1: tick"),
            ("1,\n", 1, "2 columns, but a mark has 1: tick"),
            ("4294967296\n", 1, "tick '4294967296' does not fit in 32 bits (0 to 4294967295)"),
            ("1\n-1\n", 2, "tick '-1' does not fit in 32 bits (0 to 4294967295)"),
            ("1\ntick\n", 2, "tick 'tick' is not a whole number"),
        ):
            with self.assertRaises(tables.TableError) as caught:
                tables.parse_text(content, tables.MARKS, "marks.txt")
            self.assertEqual(str(caught.exception), f"marks.txt line {line}: {said}")
        # No verb takes such a list.
        site = self.marked("x\n", plan_tbl=PLAN, prices_tbl=PRICES)
        before = sorted(os.listdir(site))
        said = f"ramyearly: {site}/marks.txt line 1: tick 'x' is not a whole number\n"
        for words in ([], ["plan"], ["check"], ["order"], ["span", "0", "4"], ["encode"]):
            self.expect([*words, site], 1, "", said)
        self.assertEqual(sorted(os.listdir(site)), before)
        self.expect(["report", site], 1, f"{site}: wrote {site}/report.html\n", said)

    def test_files_of_text(self):
        site = self.marked(marks_csv=MARKS)
        self.expect([site], 1, "", f"ramyearly: {site}/marks.csv: marks.txt is there too; keep one of them\n")
        site = self.site(jobs_txt=JOBS, levels_txt=LEVELS)
        os.mkdir(os.path.join(site, "marks.txt"))
        self.expect([site], 1, "", f"ramyearly: {site}/marks.txt: Is a directory\n")
        site = self.marked(b"1\n\xff\n")
        self.expect([site], 1, "", f"ramyearly: {site}/marks.txt line 2: this is not text\n")

    def test_marks_alone(self):
        """A mark list makes no site."""
        site = self.site(marks_txt=MARKS)
        names = "jobs.txt or tasks.txt, levels.txt"
        said = f"ramyearly: {site}: no job list, no task list and no level list ({names}; --help says more)\n"
        self.expect([site], 1, "", said)


class Refused(MarkFolders):
    def refuse(self, said, **files):
        """Every verb that cuts intervals says it, and the listing prints the refusal."""
        site = self.site(**{"jobs_txt": JOBS, "levels_txt": LEVELS, "plan_tbl": PLAN, "prices_tbl": PRICES, **files})
        before = sorted(os.listdir(site))
        self.expect([site], 1, "refused 34 0\n", f"ramyearly: {site}/{said}\n")
        for words in (["plan"], ["check"], ["order"], ["span", "0", "4"]):
            self.expect([*words, site], 1, "", f"ramyearly: {site}/{said}\n")
        self.assertEqual(sorted(os.listdir(site)), before)
        self.expect(["report", site], 1, f"{site}: wrote {site}/report.html\n", f"ramyearly: {site}/{said}\n")
        self.assertIn(said.partition(":")[2], read(os.path.join(site, "report.html")).decode())

    def test_text(self):
        falls = "mark 40 is not above 50 before it (refusal 34)"
        self.refuse(f"marks.txt line 4: {falls}", marks_txt="# a\n10\n50\n40\n30\n")
        self.refuse(f"marks.csv line 3: {falls}", marks_csv="tick\n50\n40\n")
        self.refuse("marks.txt line 2: mark 1 is not above 1 before it (refusal 34)", marks_txt="1\n1\n")
        many = "".join(f"{tick}\n" for tick in range(9))
        self.refuse("marks.txt: 9 marks, but a table has at most 8 (refusal 34)", marks_txt=many)

    def test_bytes(self):
        for data, said in (
            (b"\0", "1 byte, but the sizes alone take 2"),
            (b"\0\0\0", "3 bytes, but marks number 0, which takes 2"),
            (bytes.fromhex("0100 010000"), "5 bytes, but marks number 1, which takes 6"),
            (MARK_BYTES + b"\0", "15 bytes, but marks number 3, which takes 14"),
            (tables.to_bytes([(tick,) for tick in range(9)], tables.MARKS), "9 marks, but a table has at most 8"),
            (bytes.fromhex("0200 03000000 03000000"), "mark 3 is not above 3 before it"),
        ):
            self.refuse(f"marks.tbl: {said} (refusal 34)", marks_tbl=data)

    def test_tasks(self):
        site = self.site(tasks_txt=TASKS, levels_txt=LEVELS, marks_txt="3\n1\n")
        said = "marks.txt line 2: mark 1 is not above 3 before it (refusal 34)"
        self.expect([site], 1, "refused 34 0\n", f"ramyearly: {site}/{said}\n")
        # Tasks are laid out, and refused, before.
        site = self.site(tasks_txt="0 0 1 1\n", levels_txt=LEVELS, marks_txt="3\n1\n")
        said = "tasks.txt line 1: the period is 0 (refusal 28, entry 0)"
        self.expect([site], 1, "refused 28 0\n", f"ramyearly: {site}/{said}\n")

    def test_after_the_jobs(self):
        for files, listed, said in (
            ({"jobs_txt": "5 4 1\n"}, "9 0", "jobs.txt line 1: release 5 is not before deadline 4 (refusal 9, entry 0)"),
            ({"levels_txt": "4 20\n2 20\n"}, "4 1", "levels.txt line 2: frequency 2 is not above 4 before it (refusal 4, entry 1)"),
        ):
            site = self.marked("3\n1\n", **files)
            self.expect([site], 1, f"refused {listed}\n", f"ramyearly: {site}/{said}\n")
            self.expect(["plan", site], 1, "", f"ramyearly: {site}/{said}\n")
        # And before an overfull window.
        site = self.marked("3\n1\n", jobs_txt="0 1 5\n")
        said = "marks.txt line 2: mark 1 is not above 3 before it (refusal 34)"
        self.expect([site], 1, "refused 34 0\n", f"ramyearly: {site}/{said}\n")


if __name__ == "__main__":
    unittest.main()
