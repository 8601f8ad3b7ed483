"""Folders with parameters, by each verb: the options, what is printed and written with them, and what is refused."""

import os
import shutil
import unittest

from support import LISTING, PLAN, PRICES, ROOT, InFolder, read, write

LEVELS = "2 10\n4 20\n"
# With 5 free ticks and a margin of 50 percent the jobs of document 01's site.
JOBS = "# release deadline cycles\n0 9 4\n\n2 8 2   # 3 with the margin\n"
OPTIONS = ["--free", "5", "--margin", "50"]
ALTERED = "0 4 6\n2 3 3\n"
FIVE = "300 140\n350 150\n400 160\n450 170\n500 180\n"
VERBS = ("plan", "check", "fits", "boards", "order", "nearest", "report", "span")
WITH_HIGHEST = VERBS[:-1]


def words_of(verb, *sites):
    return [verb, *(("0", "4") if verb == "span" else ()), *sites]


class ParameterFolders(InFolder):
    def given(self, **files):
        return self.site(**{"levels_txt": LEVELS, "jobs_txt": JOBS, **files})

    def expect(self, words, status, printed, said=""):
        ended = self.run_command(*words)
        self.assertEqual((ended.returncode, ended.stdout, ended.stderr), (status, printed, said))

    def contents(self, folder):
        return {name: read(os.path.join(folder, name)) for name in os.listdir(folder)}

    def printed(self, words, site):
        """What is printed, without the site's folder."""
        ended = self.run_command(*words)
        return ended.returncode, ended.stdout.replace(site, ""), ended.stderr.replace(site, "")


class Verbs(ParameterFolders):
    """Each verb works on the altered tables: what it prints and writes is what it does for a site altered by hand."""

    def test_plan_and_check(self):
        site, by_hand = self.given(), self.site(levels_txt=LEVELS, jobs_txt=ALTERED)
        with_them = ", with free 5, margin 50"
        wrote = f"wrote {site}/plan.tbl and {site}/prices.tbl"
        self.expect(["plan", site, *OPTIONS], 0, f"{site}: jobs 2, intervals 3, steps 3, energy 1500{with_them}; {wrote}\n")
        self.assertEqual(self.run_command("plan", by_hand).returncode, 0)
        for name in ("plan.tbl", "prices.tbl"):
            self.assertEqual(read(os.path.join(site, name)), read(os.path.join(by_hand, name)))
        self.expect(["check", site, *OPTIONS], 0, f"{site}: accepted, energy 1500{with_them}\n")
        self.expect(["fits", *OPTIONS, site], 0, f"{site}: plan.tbl fits, energy 1500{with_them}\n")
        sizes = "jobs 2, intervals 3, steps 3, in order already"
        self.expect(["order", site, *OPTIONS], 0, f"{site}: {sizes}{with_them}; wrote {site}/ordered.tbl\n")
        self.assertEqual(read(os.path.join(site, "ordered.tbl")), read(os.path.join(site, "plan.tbl")))
        # The listing takes none of them.
        self.assertTrue(self.run_command(site).stdout.startswith("sizes 2 3 "))
        # The plan goes with the parameters that it was made with.
        for options, said in (
            ([], "plan.tbl: 3 cycles of job 1 in interval 1, but the job has 2 (refusal 18, step 1)"),
            (OPTIONS[:2], "plan.tbl: 3 cycles of job 1 in interval 1, but the job has 2, with free 5 (refusal 18, step 1)"),
            (OPTIONS[2:], "prices.tbl: interval 1 ends at 8, not at 3, with margin 50 (refusal 22, interval 1)"),
            (
                [*OPTIONS, "--highest", "1"],
                "plan.tbl: interval 1, from 2 to 3, has 3 cycles, but the top frequency gives 2 in 1 tick, "
                "with highest 1, free 5, margin 50 (refusal 20, interval 1)",
            ),
        ):
            self.expect(["check", site, *options], 1, "", f"ramyearly: {site}/{said}\n")

    def test_highest(self):
        site = self.site(levels_txt=FIVE, jobs_txt="0 10 3800\n")
        wrote = f"wrote {site}/plan.tbl and {site}/prices.tbl"
        sizes = "jobs 1, intervals 1, steps 1, energy 92940000"
        self.expect(["plan", site, "--highest", "3"], 0, f"{site}: {sizes}, with highest 3; {wrote}\n")
        self.expect(["plan", site, "--highest", "4"], 0, f"{site}: {sizes}, with highest 4; {wrote}\n")
        more = "overfull: from 0 to 10 job 0 needs 300 cycles more than the top frequency gives, with highest 2"
        said = f"ramyearly: {site}/jobs.txt line 1: {more} (refusal 11, window 0 to 10, spare -300)\n"
        self.expect(["plan", site, "--highest", "2"], 1, "", said)
        # An idle entry is no running level.
        site = self.site(levels_txt="0 0\n" + FIVE, jobs_txt="0 10 3800\n")
        self.assertIn(f"{sizes}, with highest 3;", self.run_command("plan", site, "--highest", "3").stdout)

    def test_tasks_and_marks(self):
        """Jobs that are laid out are altered; the round and the marks are not."""
        site = self.site(levels_txt=LEVELS, tasks_txt="0 12 9 4\n2 12 6 2\n", marks_txt="1\n4\n5\n")
        wrote = f"wrote {site}/plan.tbl and {site}/prices.tbl"
        sizes = "jobs 2, marks 3, intervals 4, steps 4, energy 1500, repeats every 12 ticks, with free 5, margin 50"
        self.expect(["plan", site, *OPTIONS], 0, f"{site}: {sizes}; {wrote}\n")
        empty = "nothing is left of the window of job 1: deadline 8 less 6 ticks kept free is not after release 2"
        said = f"ramyearly: {site}/tasks.txt line 2: {empty} (refusal 36, job 1)\n"
        self.expect(["plan", site, "--free", "6"], 1, "", said)

    def test_a_plan_made_by_hand(self):
        """Its intervals are those of the altered tables."""
        site, out = self.given(plan_txt="0 0 4\n1 1 3\n2 0 2\n"), self.site()
        printed = f"{site}: plan.txt fits, energy 1500, with free 5, margin 50; wrote {out}/plan.tbl\n"
        self.expect(["fits", site, *OPTIONS, "-o", out], 0, printed)
        self.assertEqual(self.contents(out)["plan.tbl"][:4], b"\3\0\3\0")
        few = "the plan gives job 0 6 cycles, but it has 7, with free 5, margin 51 (refusal 19, job 0)"
        self.expect(["fits", site, "--free", "5", "--margin", "51"], 1, "", f"ramyearly: {site}/jobs.txt line 2: {few}\n")
        over = "interval 0, from 0 to 2, has 6 cycles, but the top frequency gives 4 in 2 ticks"
        site = self.given(plan_txt="0 0 6\n1 1 3\n")
        said = f"ramyearly: {site}/plan.txt line 1: {over}, with highest 1, free 5, margin 50 (refusal 20, interval 0)\n"
        self.expect(["fits", site, *OPTIONS, "--highest", "1"], 1, "", said)

    def test_span(self):
        """With the deadlines and cycles as they were given beside the altered ones."""
        site = self.given()
        self.assertEqual(self.run_command("plan", site, *OPTIONS).returncode, 0)
        page = f"""\
{site}: from tick 2 up to, but not including, tick 4 (2 ticks)
5 ticks are kept free before each deadline and each job's cycles have a margin of 50 percent, rounded up.

2 jobs are open somewhere in it (jobs are numbered from 0):
  job  release  deadline  cycles  given deadline  given cycles  jobs.txt line
    0        0         4       6               9             4              2
    1        2         3       3               8             2              4

1 job lies wholly inside it: job 1.

2 steps of the plan have intervals that share a tick with it; the cycles run between from and to:
  from  to  job  cycles
     2   3    1       3
     3   4    0       2

The nearest deadline at or after tick 2 is tick 3, of job 1.
"""
        self.expect(["span", "2", "4", site, *OPTIONS], 0, page)
        # Only what is altered.
        shown = self.run_command("span", "0", "1", self.given(plan_tbl=b"\3\0\0\0"), "--margin", "1").stdout
        self.assertIn("\nEach job's cycles have a margin of 1 percent, rounded up.\n", shown)
        self.assertIn("  job  release  deadline  cycles  given cycles  jobs.txt line\n", shown)
        # An emptied window is refused, and a wrong span before it.
        self.expect(["span", "4", "4", site, "--free", "6"], 1, "", "ramyearly: start 4 is not before end 4 (refusal 33)\n")
        empty = "nothing is left of the window of job 1: deadline 8 less 6 ticks kept free is not after release 2"
        said = f"ramyearly: {site}/jobs.txt line 4: {empty} (refusal 36, job 1)\n"
        self.expect(["span", "0", "4", site, "--free", "6"], 1, "", said)

    def test_boards(self):
        """The highest level is that of every board. One with fewer running levels refuses it."""
        two = "levels-two.txt"
        site = self.site(levels_txt=FIVE, jobs_txt="0 20 3300\n")
        write(os.path.join(site, two), "300 140\n350 150\n")
        write(os.path.join(site, "levels-low.txt"), "0 1\n300 120\n350 128\n400 137\n900 138\n")
        page = f"""\
{site}: 3 boards; the plan is made for levels.txt, since there is no plan.tbl
Only the lowest 3 running levels are allowed, 10 ticks are kept free before each deadline and each job's cycles have a \
margin of 15 percent, rounded up.

  level list      working frequencies  energy figure
  levels.txt      300 350 400             92,703,500
  levels-low.txt  300 350 400             67,805,880
  {two}  -                          refused

The plan serves 2 of 3 boards. On a board that it serves, no schedule that meets all deadlines needs less energy.
  {site}/{two}: highest level 3 is not in range (1 to 2, the running levels of the table) (refusal 35)

Boards with the same working frequencies take the same plans with the same prices.
"""
        options = ["--highest", "3", "--free", "10", "--margin", "15"]
        self.expect(["boards", site, *options], 1, page)
        # The same plan, written before.
        self.assertEqual(self.run_command("plan", site, *options).returncode, 0)
        written = page.replace("made for levels.txt, since there is no plan.tbl", "that of plan.tbl and prices.tbl")
        self.expect(["boards", site, *options], 1, written)
        shown = self.run_command("boards", site, "--highest", "9").stdout
        self.assertIn("highest level 9 is not in range (1 to 4, the running levels of the table)", shown)
        for name in ("plan.tbl", "prices.tbl"):
            os.remove(os.path.join(site, name))
        shown = self.run_command("boards", site, "--highest", "9").stdout
        self.assertIn("No level list can be read and has so many running levels, so no plan can be made.\n", shown)
        said = f"ramyearly: {site}: margin 101 is not in range (0 to 100 percent) (refusal 35)\n"
        self.expect(["boards", site, "--margin", "101"], 1, "", said)

    def test_report(self):
        site = self.given()
        self.expect(["report", site, *OPTIONS, "--highest", "2"], 0, f"{site}: wrote {site}/report.html\n")
        page = read(os.path.join(site, "report.html")).decode()
        self.assertTrue("5 ticks are kept free before each deadline and each job&#39;s cycles have a margin of 50" in page)
        self.assertTrue("1,500" in page)

    def test_several_folders(self):
        """The parameters are those of every folder."""
        sites = [self.given(), self.given(jobs_txt="0 5 1\n"), self.given()]
        ended = self.run_command("plan", *sites, *OPTIONS)
        self.assertEqual((ended.returncode, ended.stdout.count(", with free 5, margin 50;")), (1, 2))
        empty = "nothing is left of the window of job 0: deadline 5 less 5 ticks kept free is not after release 0"
        self.assertEqual(ended.stderr, f"ramyearly: {sites[1]}/jobs.txt line 1: {empty} (refusal 36, job 0)\n")


class NothingAltered(ParameterFolders):
    def test_as_without(self):
        """All running levels with 0 and 0: the same is printed and written."""
        for verb in VERBS:
            files = {"levels_txt": f"0 0\n{LEVELS}", "jobs_txt": "0 4 6\n2 3 4\n", "plan_tbl": PLAN, "prices_tbl": PRICES}
            # Two folders of one name, which is the title of a page.
            plain, given = (self.site(name=f"{verb} {number}/site", **files) for number in (1, 2))
            options = ["--free", "0", "--margin", "0", *(["--highest", "2"] if verb in WITH_HIGHEST else [])]
            expected = self.printed(words_of(verb, plain), plain)
            self.assertEqual(self.printed([*words_of(verb, given), *options], given), expected)
            self.assertEqual(expected[0], 0)
            for name, content in self.contents(given).items():
                self.assertTrue(content.replace(given.encode(), plain.encode()) == read(os.path.join(plain, name)))

    def test_no_file(self):
        """A file of such a name means nothing."""
        site = self.site(levels_txt=LEVELS, jobs_txt="0 4 6\n2 3 4\n", parameters_txt="1 5 50\n", parameters_tbl=b"\1")
        self.expect([site], 0, LISTING)
        self.assertEqual(self.run_command("plan", site).returncode, 0)
        self.assertEqual(read(os.path.join(site, "plan.tbl")), PLAN)


class Refused(ParameterFolders):
    def refuse(self, verb, site, options, said):
        """With this said, and nothing written."""
        before = self.contents(site)
        ended = self.run_command(*words_of(verb, site), *options)
        self.assertEqual(ended.returncode, 1)
        self.assertIn(f"{site}{said}\n", ended.stderr or ended.stdout)
        if verb != "report":
            self.assertEqual(self.contents(site), before)

    def test_ranges(self):
        """The parameter, its value and its range, by each verb."""
        site = self.given(plan_tbl=PLAN, prices_tbl=PRICES)
        levels = "is not in range (1 to 2, the running levels of the table) (refusal 35)"
        for verb in VERBS:
            if verb in WITH_HIGHEST:
                self.refuse(verb, site, ["--highest", "3"], f"/levels.txt: highest level 3 {levels}")
        self.refuse("plan", site, ["--highest", "0"], f"/levels.txt: highest level 0 {levels}")
        for verb in ("check", "span"):
            self.refuse(verb, site, ["--margin", "101"], ": margin 101 is not in range (0 to 100 percent) (refusal 35)")
        free = ": free ticks 1000001 are not in range (0 to 1,000,000) (refusal 35)"
        self.refuse("plan", site, ["--free", "1_000_001"], free)

    def test_jobs(self):
        """The job, its file and its line, by each verb."""
        site = self.given(plan_tbl=PLAN, prices_tbl=PRICES)
        empty = "nothing is left of the window of job 1: deadline 8 less 6 ticks kept free is not after release 2"
        for verb in VERBS:
            self.refuse(verb, site, ["--free", "6"], f"/jobs.txt line 4: {empty} (refusal 36, job 1)")
        # The page has the entry as it stands in the file.
        page = read(os.path.join(site, "report.html")).decode()
        self.assertTrue("6 ticks are kept free before each deadline." in page and "The refused entry" in page)
        many = "cycles 600000000 of job 0 with a margin of 67 percent are 1002000000, above 1,000,000,000 (refusal 36, job 0)"
        site = self.given(jobs_txt="\n0 9 600_000_000\n")
        self.refuse("plan", site, ["--margin", "67"], f"/jobs.txt line 2: {many}")
        site = self.site(levels_txt=LEVELS, tasks_txt="# a task\n0 9 9 600000000\n")
        self.refuse("plan", site, ["--margin", "67"], f"/tasks.txt line 2: {many}")
        site = self.site(levels_txt=LEVELS, jobs_tbl=bytes.fromhex("0100 00000000 09000000 0046c323"))
        self.refuse("plan", site, ["--margin", "67"], f"/jobs.tbl: {many}")

    def test_after_the_tables(self):
        site = self.given(marks_txt="3\n1\n")
        said = "/marks.txt line 2: mark 1 is not above 3 before it (refusal 34)"
        self.refuse("plan", site, ["--highest", "9", "--free", "9"], said)

    def test_wrong_usage(self):
        site = self.given()
        for verb, options, said in (
            ("plan", ["--free", "-1"], "--free: free '-1' does not fit in 32 bits (0 to 4294967295)"),
            ("check", ["--highest", "x"], "--highest: highest 'x' is not a whole number"),
            ("fits", ["--margin", "1.5"], "--margin: margin '1.5' is not a whole number"),
            ("order", ["--margin", "4294967296"], "--margin: margin '4294967296' does not fit in 32 bits (0 to 4294967295)"),
            ("report", ["--free", ""], "--free: free is empty"),
            ("boards", ["--highest"], "--highest: expected one argument"),
            # A verb takes no parameter that does not bear on what it does.
            ("span", ["--highest", "1"], "unrecognized arguments: --highest"),
            *((verb, ["--margin", "1"], "unrecognized arguments: --margin") for verb in ("rounds", "encode", "decode")),
        ):
            ended = self.run_command(*words_of(verb, site), *options)
            self.assertEqual((ended.returncode, ended.stdout), (2, ""))
            self.assertIn(said, ended.stderr)
        ended = self.run_command(site, "--free", "1")
        self.assertEqual((ended.returncode, ended.stdout), (2, ""))

    def test_help(self):
        """Each verb explains its options, with an example; the listing says that it takes none."""
        for verb in VERBS:
            shown = " ".join(self.run_command(verb, "--help").stdout.split())
            self.assertIn("--free N keep N ticks free before each deadline, 0 to 1,000,000", shown)
            self.assertIn("--margin N put N percent on each job's cycles, rounded up, 0 to 100", shown)
            self.assertEqual("--highest N" in shown, verb in WITH_HIGHEST)
            folder, highest = ("140 175 DIR", "") if verb == "span" else ("DIR", "--highest 3 ")
            self.assertIn(f"ramyearly {verb} {folder} {highest}--free 20 --margin 15", shown)
        site = self.given()
        shown = " ".join(self.run_command(site, "--help").stdout.split())
        self.assertIn("all running levels, 0 free ticks and a margin of 0, and takes no --highest, --free or --margin", shown)
        shown = self.run_command("--help").stdout
        self.assertIn("  --highest N   only the lowest N running levels are allowed\n", shown)
        self.assertIn("ramyearly plan DIR --highest 3 --free 20 --margin 15", shown)


class Example(ParameterFolders):
    def test_worn_battery(self):
        """It just fits with its parameters, of which one more percent is too much."""
        shutil.copytree(os.path.join(ROOT, "examples", "worn-battery"), os.path.join(self.folder, "examples", "worn-battery"))
        site = os.path.join("examples", "worn-battery")
        options = ["--highest", "3", "--free", "20", "--margin"]
        ended = self.run_command("plan", site, *options, "20", cwd=self.folder)
        printed = read(os.path.join(self.folder, site, "expected-plan.txt")).decode()
        self.assertEqual((ended.returncode, ended.stdout, ended.stderr), (0, printed, ""))
        ended = self.run_command("plan", site, *options, "21", cwd=self.folder)
        self.assertIn("overfull: from 0 to 180 jobs 0 and 1 need 600 cycles more", ended.stderr)
        with open(os.path.join(ROOT, "README.md"), encoding="utf-8") as file:
            self.assertTrue(f"    {printed}" in file.read())


if __name__ == "__main__":
    unittest.main()
