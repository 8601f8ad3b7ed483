"""Which boards one plan serves, of folders with several level lists: what is printed, the status, and what is said."""

import os
import shutil
import unittest

from ramyearly import tables
from support import BACKWARDS, PAIR, PLAN, PRICES, ROOT, TWO_JOBS, InFolder, read, write

LEVELS = "2 10\n4 20\n"
JOBS = "0 4 6\n2 3 4\n"
TASKS = "0 4 4 6\n2 4 1 4\n"
LOW = "# lower voltages\n2 9\n4 19\n"
DRAWS = "0 1   # idles at 1,000\n2 30\n3 40   # dropped\n4 40\n"
# Of these only 4 works.
EQUAL = "2 20\n4 20\n"

LEAST = " On a board that it serves, no schedule that meets all deadlines needs less energy."
ALIKE = "\nBoards with the same working frequencies take the same plans with the same prices.\n"
OF_FILES = "the plan is that of plan.tbl and prices.tbl"
MADE = "the plan is made for %s, since there is no plan.tbl"
THREE = """\
%s: 3 boards; %s
%s
  level list        working frequencies  energy figure
  levels.txt        2 4                          2,200
  levels-draws.txt  2 4                         11,800
  levels-low.txt    2 4                          1,930

One plan serves all 3 boards.""" + LEAST + "\n" + ALIKE
ONE = """\
%s: 1 board; %s

  level list  working frequencies  energy figure
  %s  2 4                          2,200

The plan serves the board.""" + LEAST + "\n"
TWO = """\
%s: 2 boards; %s

%s
%s
"""
BAND = "price 2 of interval 1 is not the number of a band (refusal 22, interval 1)"


class BoardFolders(InFolder):
    def boards(self, **lists):
        """A site with these level lists beside each other: low is the content of levels-low.txt."""
        return self.site(jobs_txt=JOBS, levels_txt=LEVELS, **{f"levels-{name}_txt": text for name, text in lists.items()})

    def three(self, **files):
        return self.site(**{"jobs_txt": JOBS, "levels_txt": LEVELS, "levels-low_txt": LOW, "levels-draws_txt": DRAWS, **files})

    def expect(self, words, status, printed, said=""):
        ended = self.run_command("boards", *words)
        self.assertEqual((ended.returncode, ended.stdout, ended.stderr), (status, printed, said))

    def printed_of(self, site, status):
        """What is printed of a site, of which nothing is said and which stays as it is."""
        before = self.contents(site)
        ended = self.run_command("boards", site)
        self.assertEqual((ended.returncode, ended.stderr, self.contents(site)), (status, "", before))
        return ended.stdout

    def contents(self, folder):
        paths = [os.path.join(folder, name) for name in os.listdir(folder)]
        return {path: read(path) for path in paths if os.path.isfile(path)}


class Served(BoardFolders):
    def test_the_plan_is_made(self):
        """For the first board, and nothing is written."""
        site = self.three()
        self.assertEqual(self.printed_of(site, 0), THREE % (site, MADE % "levels.txt", ""))

    def test_the_plan_of_the_folder(self):
        for plan in (PLAN, BACKWARDS):
            site = self.three(plan_tbl=plan, prices_tbl=PRICES)
            self.assertEqual(self.printed_of(site, 0), THREE % (site, OF_FILES, ""))
        site = self.three()
        self.assertEqual(self.run_command("plan", site).returncode, 0)
        self.assertEqual(self.printed_of(site, 0), THREE % (site, OF_FILES, ""))

    def test_figures_of_the_check(self):
        """Each board alone has the same figure."""
        for levels, energy in ((LEVELS, 2200), (LOW, 1930), (DRAWS, 11800)):
            site = self.site(jobs_txt=JOBS, levels_txt=levels, plan_tbl=PLAN, prices_tbl=PRICES)
            self.assertEqual(self.run_command("check", site).stdout, f"{site}: accepted, energy {energy}\n")

    def test_every_form_alike(self):
        csv = {"levels-low_csv": "frequency,voltage\r\n2,9\r\n4,19\r\n"}
        data = {"levels-low_tbl": tables.to_bytes([(2, 9), (4, 19)], tables.LEVELS)}
        for files, file in (
            ({"levels-low_txt": LOW}, "levels-low.txt"),
            (csv, "levels-low.csv"),
            (data, "levels-low.tbl"),
            # The text wins over the bytes.
            ({"levels-low_tbl": b"\1", **csv}, "levels-low.csv"),
        ):
            site = self.site(jobs_tbl=TWO_JOBS, levels_tbl=PAIR, **files)
            printed = self.printed_of(site, 0)
            self.assertIn("  levels.tbl      2 4                          2,200\n", printed)
            self.assertIn(f"  {file}  2 4                          1,930\n", printed)
            self.assertIn("\nOne plan serves all 2 boards." + LEAST + "\n", printed)

    def test_one_board(self):
        site = self.site(jobs_txt=JOBS, levels_txt=LEVELS)
        self.assertEqual(self.printed_of(site, 0), ONE % (site, MADE % "levels.txt", "levels.txt"))
        site = self.site(jobs_tbl=TWO_JOBS, levels_tbl=PAIR, plan_tbl=PLAN, prices_tbl=PRICES)
        self.assertEqual(self.printed_of(site, 0), ONE % (site, OF_FILES, "levels.tbl"))
        # Without a list of the name levels.
        site = self.site(jobs_txt=JOBS, **{"levels-b_txt": LEVELS})
        expected = ONE.replace("level list  ", "level list    ") % (site, MADE % "levels-b.txt", "levels-b.txt")
        self.assertEqual(self.printed_of(site, 0), expected)

    def test_other_working_frequencies(self):
        """A plan may be accepted there too, and two boards that differ in them are not said to be alike."""
        site = self.site(jobs_txt="0 4 6\n", levels_txt=LEVELS, **{"levels-fast_txt": "2 9\n1_000 20\n"})
        printed = self.printed_of(site, 0)
        self.assertIn("\n  levels.txt       2 4                            600\n", printed)
        self.assertIn("\n  levels-fast.txt  2 1,000                        486\n", printed)
        self.assertTrue(printed.endswith("\nOne plan serves all 2 boards." + LEAST + "\n"))

    def test_no_jobs(self):
        site = self.three(jobs_txt="")
        self.assertEqual(self.printed_of(site, 0).count("      0\n"), 3)

    def test_names(self):
        """levels first, and the others by name. Other names are no level lists."""
        names = ("levels-10.txt", "levels-B.txt", "levels-a b.txt", "levels-a.b.txt", "levels-z.txt", "levels--.txt")
        others = ("levels-.txt", "levels_b.txt", "levelsb.txt", "levels b.txt", "levels-c.txt~", "levels-c", "old-levels.txt")
        site = self.site(jobs_txt=JOBS, levels_txt=LEVELS)
        for name in names:
            write(os.path.join(site, name), LOW)
        for name in others:
            write(os.path.join(site, name), "no table\n")
        rows = [line for line in self.printed_of(site, 0).splitlines() if line.startswith("  levels")]
        files = [row[2:].split("  ")[0] for row in rows]
        self.assertEqual(files, ["levels.txt", *sorted(names)])

    def test_names_that_are_no_text(self):
        site = self.site(jobs_txt=JOBS, levels_txt=LEVELS)
        write(os.path.join(site, "levels-caf\udce9.txt"), LOW)
        ended = self.run_command("boards", site, text=False)
        self.assertEqual((ended.returncode, ended.stderr), (0, b""))
        self.assertIn(b"\n  levels-caf\xe9.txt  2 4 ", ended.stdout)

    def test_tasks(self):
        """The figures are those of one round."""
        round_of = "The figures are of one round, which repeats every 4 ticks.\n"
        files = {"levels_txt": LEVELS, "levels-low_txt": LOW, "levels-draws_txt": DRAWS}
        site = self.site(tasks_txt=TASKS, **files)
        self.assertEqual(self.printed_of(site, 0), THREE % (site, MADE % "levels.txt", round_of))
        site = self.site(tasks_txt=TASKS, plan_tbl=PLAN, prices_tbl=PRICES, **files)
        self.assertEqual(self.printed_of(site, 0), THREE % (site, OF_FILES, round_of))

    def test_marks(self):
        """They cut intervals, and the figures stay. A plan goes with its marks."""
        site = self.three(marks_txt="1\n")
        self.assertEqual(self.printed_of(site, 0), THREE % (site, MADE % "levels.txt", ""))
        self.assertEqual(self.run_command("plan", site).returncode, 0)
        self.assertEqual(self.printed_of(site, 0), THREE % (site, OF_FILES, ""))
        os.remove(os.path.join(site, "marks.txt"))
        self.assertIn("\nThe plan serves none of 3 boards.\n", self.printed_of(site, 1))

    def test_several_folders(self):
        """An empty line follows each. The work goes on after one that is refused, and the worst status is the command's."""
        good, mixed, overfull = self.three(), self.boards(equal=EQUAL), self.site(jobs_txt="0 1 5\n", levels_txt=LEVELS)
        missing = self.folder + "/none"
        first = THREE % (good, MADE % "levels.txt", "") + "\n"
        self.expect([good, good], 0, first * 2)
        ended = self.run_command("boards", mixed, good)
        self.assertEqual((ended.returncode, ended.stderr), (1, ""))
        self.assertTrue(ended.stdout.startswith(f"{mixed}: 2 boards") and ended.stdout.endswith("\n\n" + first))
        ended = self.run_command("boards", overfull, good)
        self.assertEqual((ended.returncode, ended.stdout), (1, first))
        self.assertIn(f"{overfull}/jobs.txt line 1: overfull", ended.stderr)
        self.expect([missing, good], 2, first, f"ramyearly: {missing}: no such folder\n")

    def test_the_example(self):
        site = os.path.join(self.folder, "examples", "boards")
        shutil.copytree(os.path.join(ROOT, "examples", "boards"), site, ignore=shutil.ignore_patterns("*.tbl"))
        ended = self.run_command("boards", "examples/boards", cwd=self.folder)
        expected = read(os.path.join(site, "expected-boards.txt")).decode()
        self.assertEqual((ended.returncode, ended.stdout, ended.stderr), (1, expected, ""))
        os.remove(os.path.join(site, "levels-equal-voltages.txt"))
        self.assertIn("\nOne plan serves all 3 boards.", self.printed_of(site, 0))


class Refused(BoardFolders):
    def refuse(self, site, faults, verdict="The plan serves none of 2 boards."):
        """The verdict, and under it a line for each board that is not served."""
        printed = self.printed_of(site, 1)
        lines = "".join(f"  {fault}\n" for fault in faults)
        self.assertIn(f"\n{verdict}\n{lines}", printed)
        self.assertEqual(printed.count("refused\n") + printed.count("no table\n"), len(faults))

    def test_one_of_them(self):
        """The plan is named by the board that it was made for, or by its files."""
        table = "  level list        working frequencies  energy figure\n"
        table += "  levels.txt        2 4                          2,200\n"
        table += "  levels-equal.txt  4                          refused\n"
        verdict = "The plan serves 1 of 2 boards." + LEAST
        site = self.boards(equal=EQUAL)
        fault = f"  levels-equal.txt: the prices for levels.txt: {BAND}"
        self.assertEqual(self.printed_of(site, 1), TWO % (site, MADE % "levels.txt", table, f"{verdict}\n{fault}"))
        self.assertEqual(self.run_command("plan", site).returncode, 0)
        fault = f"  levels-equal.txt: {site}/prices.tbl: {BAND}"
        self.assertEqual(self.printed_of(site, 1), TWO % (site, OF_FILES, table, f"{verdict}\n{fault}"))
        # The same where others are served.
        site = self.boards(equal=EQUAL, low=LOW)
        fault = f"levels-equal.txt: the prices for levels.txt: {BAND}"
        self.refuse(site, [fault], "The plan serves 2 of 3 boards." + LEAST)
        self.assertTrue(self.printed_of(site, 1).endswith(ALIKE))

    def test_a_lower_top_frequency(self):
        fault = "interval 1, from 2 to 3, has 4 cycles, but the top frequency gives 3 in 1 tick (refusal 20, interval 1)"
        faults = [f"levels-slow.txt: the plan for levels.txt: {fault}"]
        self.refuse(self.boards(slow="2 10\n3 20\n"), faults, "The plan serves 1 of 2 boards." + LEAST)

    def test_no_board_is_served(self):
        files = {"levels_txt": EQUAL, "plan_tbl": PLAN, "prices_tbl": PRICES}
        site = self.site(jobs_txt=JOBS, **files)
        self.refuse(site, [f"levels.txt: {site}/prices.tbl: {BAND}"], "The plan does not serve the board.")
        site = self.site(jobs_txt=JOBS, **files, **{"levels-b_txt": EQUAL})
        self.refuse(site, [f"levels{name}.txt: {site}/prices.tbl: {BAND}" for name in ("", "-b")])

    def test_the_plan_of_another_site(self):
        for files, fault in (
            ({"jobs_txt": "0 4 6\n"}, "plan.tbl: 3 intervals, but the jobs make 1 (refusal 16)"),
            ({"jobs_txt": "0 4 6\n2 3 1\n"}, "plan.tbl: 4 cycles of job 1 in interval 1, but the job has 1 (refusal 18, step 1)"),
            ({"jobs_txt": "0 4 7\n2 3 4\n"}, "jobs.txt line 1: the plan gives job 0 6 cycles, but it has 7 (refusal 19, job 0)"),
        ):
            site = self.site(levels_txt=LEVELS, plan_tbl=PLAN, prices_tbl=PRICES, **files, **{"levels-low_txt": LOW})
            self.refuse(site, [f"levels{name}.txt: {site}/{fault}" for name in ("", "-low")])

    def test_half_a_plan(self):
        """One of the two files alone is what is checked, and the other counts as empty, as for check."""
        empty = "No such file or directory, so it counts as empty: 0 bytes, but the sizes alone take"
        for files, fault in (
            ({"plan_tbl": PLAN}, f"prices.tbl: {empty} 2 (refusal 21)"),
            ({"prices_tbl": PRICES}, f"plan.tbl: {empty} 4 (refusal 15)"),
            ({"plan_tbl": b"", "prices_tbl": PRICES}, "plan.tbl: 0 bytes, but the sizes alone take 4 (refusal 15)"),
        ):
            site = self.site(jobs_txt=JOBS, levels_txt=LEVELS, **files, **{"levels-low_txt": LOW})
            self.refuse(site, [f"levels{name}.txt: {site}/{fault}" for name in ("", "-low")])
        site = self.boards(low=LOW)
        os.mkdir(os.path.join(site, "plan.tbl"))
        fault = "plan.tbl: Is a directory, so it counts as empty: 0 bytes, but the sizes alone take 4 (refusal 15)"
        self.refuse(site, [f"levels{name}.txt: {site}/{fault}" for name in ("", "-low")])

    def test_jobs_and_marks(self):
        """With a plan in the folder every board refuses them; without one, planning does, and it is said as plan says it."""
        for files, fault in (
            ({"jobs_txt": "5 4 1\n"}, "jobs.txt line 1: release 5 is not before deadline 4 (refusal 9, entry 0)"),
            ({"marks_txt": "3\n1\n"}, "marks.txt line 2: mark 1 is not above 3 before it (refusal 34)"),
        ):
            site = self.three(plan_tbl=PLAN, prices_tbl=PRICES, **files)
            names = ("", "-draws", "-low")
            self.refuse(site, [f"levels{name}.txt: {site}/{fault}" for name in names], "The plan serves none of 3 boards.")
            site = self.three(**files)
            self.expect([site], 1, "", f"ramyearly: {site}/{fault}\n")
            self.assertEqual(self.run_command("plan", site).stderr, f"ramyearly: {site}/{fault}\n")

    def test_overfull(self):
        site = self.three(jobs_txt="0 1 5\n")
        ended = self.run_command("plan", site)
        self.assertIn("overfull: from 0 to 1 job 0 needs 1 cycle more", ended.stderr)
        self.expect([site], 1, "", ended.stderr)

    def test_no_job_list(self):
        site = self.site(levels_txt=LEVELS, **{"levels-low_txt": LOW})
        empty = "No such file or directory, so it counts as empty: 0 bytes, but the sizes alone take 2 (refusal 6)"
        self.expect([site], 1, "", f"ramyearly: {site}/jobs.tbl: {empty}\n")

    def test_text_of_jobs_marks_and_tasks(self):
        """What is no table there is of no board, and is said once."""
        for files, said in (
            ({"jobs_txt": "0 x 1\n"}, "jobs.txt line 1: deadline 'x' is not a whole number"),
            ({"marks_txt": "x\n"}, "marks.txt line 1: tick 'x' is not a whole number"),
            ({"jobs_csv": JOBS}, "jobs.csv: jobs.txt is there too; keep one of them"),
        ):
            site = self.three(plan_tbl=PLAN, prices_tbl=PRICES, **files)
            self.expect([site], 1, "", f"ramyearly: {site}/{said}\n")
        site = self.three(tasks_txt=TASKS)
        both = "jobs.txt is there too, and a task list stands in place of a job list; keep one of them"
        self.expect([site], 1, "", f"ramyearly: {site}/tasks.txt: {both}\n")
        site = self.site(tasks_txt="0 0 1 1\n", levels_txt=LEVELS, **{"levels-low_txt": "x\n"})
        self.expect([site], 1, "", f"ramyearly: {site}/tasks.txt line 1: the period is 0 (refusal 28, entry 0)\n")


class LevelLists(BoardFolders):
    def test_no_level_list(self):
        names = "levels.txt, levels.csv or levels.tbl, levels-NAME.txt, levels-NAME.csv or levels-NAME.tbl"
        for files in ({}, {"jobs_txt": JOBS}, {"jobs_txt": JOBS, "plan_tbl": PLAN}, {"tasks_txt": TASKS, "levels-_txt": LEVELS}):
            site = self.site(**files)
            self.expect([site], 1, "", f"ramyearly: {site}: no level list ({names}; --help says more)\n")

    def test_refused_and_no_table(self):
        """Said of that board with its file and line, and the others have their rows."""
        for name, content, word, fault in (
            ("b_txt", "2 10\n\n2 20\n", "refused", "b.txt line 3: frequency 2 is not above 2 before it (refusal 4, entry 1)"),
            ("b_csv", "2,10\n4,x\n", "no table", "b.csv line 2: voltage 'x' is not a whole number"),
            ("b_tbl", b"\1", "refused", "b.tbl: 1 byte, but the sizes alone take 2 (refusal 1)"),
            ("b_txt", "0 1\n", "refused", "b.txt line 1: the idle entry stands alone: no level follows it (refusal 31)"),
            ("b_txt", "0 x\n", "no table", "b.txt line 1: idle draw 'x' is not a whole number"),
            ("b_txt", b"2 10\n\xff\n", "no table", "b.txt line 2: this is not text"),
        ):
            for files, plan in (({}, MADE % "levels.txt"), ({"plan_tbl": PLAN, "prices_tbl": PRICES}, OF_FILES)):
                site = self.site(jobs_txt=JOBS, levels_txt=LEVELS, **files, **{f"levels-{name}": content})
                table = "  level list    working frequencies  energy figure\n"
                table += "  levels.txt    2 4                          2,200\n"
                table += f"  levels-{name.replace('_', '.')}  -                    {word:>13}\n"
                verdict = f"The plan serves 1 of 2 boards.{LEAST}\n  {site}/levels-{fault}"
                self.assertEqual(self.printed_of(site, 1), TWO % (site, plan, table, verdict))

    def test_two_texts_and_folders(self):
        site = self.boards(b=LOW)
        write(os.path.join(site, "levels-b.csv"), LOW)
        os.mkdir(os.path.join(site, "levels-c.txt"))
        os.mkdir(os.path.join(site, "levels-d.tbl"))
        empty = "Is a directory, so it counts as empty: 0 bytes, but the sizes alone take 2 (refusal 1)"
        printed = self.printed_of(site, 1)
        for row in ("levels-b.txt  -                         no table", "levels-c.txt  -                         no table",
                    "levels-d.tbl  -                          refused"):  # fmt: skip
            self.assertIn(f"\n  {row}\n", printed)
        faults = (
            f"{site}/levels-b.csv: levels-b.txt is there too; keep one of them",
            f"{site}/levels-c.txt: Is a directory",
            f"{site}/levels-d.tbl: {empty}",
        )
        verdict = "The plan serves 1 of 4 boards." + LEAST
        self.assertTrue(printed.endswith("".join(f"{line}\n" for line in (verdict, *(f"  {fault}" for fault in faults)))))

    def test_planned_for_the_first_that_is_read(self):
        further = {"levels-a_txt": "1001 1\n", "levels-b_txt": LOW, "levels-c_txt": LEVELS}
        site = self.site(jobs_txt=JOBS, levels_txt="x\n", **further)
        printed = self.printed_of(site, 1)
        self.assertTrue(printed.startswith(f"{site}: 4 boards; {MADE % 'levels-b.txt'}\n"))
        self.assertIn("\n  levels-b.txt  2 4                          1,930\n", printed)
        self.assertIn("\nThe plan serves 2 of 4 boards." + LEAST + "\n", printed)

    def test_none_is_read(self):
        site = self.site(jobs_txt=JOBS, levels_txt="x y\n", **{"levels-a_txt": "1001 1\n"})
        table = "  level list    working frequencies  energy figure\n"
        table += "  levels.txt    -                         no table\n"
        table += "  levels-a.txt  -                          refused\n"
        faults = (
            f"  {site}/levels.txt line 1: frequency 'x' is not a whole number\n"
            f"  {site}/levels-a.txt line 1: frequency 1001 is not in range (1 to 1,000) (refusal 4, entry 0)"
        )
        verdict = f"No level list can be read, so no plan can be made.\n{faults}"
        self.assertEqual(self.printed_of(site, 1), TWO % (site, "there is no plan", table, verdict))
        write(os.path.join(site, "plan.tbl"), PLAN)
        verdict = f"The plan serves none of 2 boards.\n{faults}"
        self.assertEqual(self.printed_of(site, 1), TWO % (site, OF_FILES, table, verdict))

    def test_other_verbs_read_levels_alone(self):
        site = self.three(**{"levels-bad_txt": "x\n"})
        self.assertEqual(self.run_command("plan", site).returncode, 0)
        self.assertEqual(self.run_command("check", site).stdout, f"{site}: accepted, energy 2200\n")

    def test_encode_and_decode(self):
        site, text = self.three(), self.site()
        self.assertEqual(self.run_command("encode", site).returncode, 0)
        names = sorted(name for name in os.listdir(site) if name.endswith(".tbl"))
        self.assertEqual(names, ["jobs.tbl", "levels-draws.tbl", "levels-low.tbl", "levels.tbl"])
        shown = self.run_command("decode", site).stdout
        self.assertIn("\n# levels.tbl\n# levels 2\n# frequency voltage\n2 10\n4 20\n# levels-draws.tbl\n# levels 4\n", shown)
        self.assertIn("\n# the first entry is the idle entry", shown)
        self.assertTrue(shown.endswith("\n# levels-low.tbl\n# levels 2\n# frequency voltage\n2 9\n4 19\n"))
        self.assertEqual(self.run_command("decode", site, text).returncode, 0)
        self.assertEqual(sorted(os.listdir(text)), ["jobs.txt", "levels-draws.txt", "levels-low.txt", "levels.txt"])
        self.assertEqual(self.printed_of(text, 0), THREE % (text, MADE % "levels.txt", ""))
        # A text that is no table is refused with all of them.
        site = self.boards(low="2 x\n")
        ended = self.run_command("encode", site)
        said = f"ramyearly: {site}/levels-low.txt line 1: voltage 'x' is not a whole number\n"
        self.assertEqual((ended.returncode, ended.stderr), (1, said))
        self.assertEqual(sorted(os.listdir(site)), ["jobs.txt", "levels-low.txt", "levels.txt"])


if __name__ == "__main__":
    unittest.main()
