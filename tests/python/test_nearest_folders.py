"""The job nearest to trouble, of folders: each sentence that is printed, and what is said where a site is overfull or refused."""

import os
import unittest

from support import PAIR, ROOT, TWO_JOBS, InFolder, read

LEVELS = "2 10\n4 20\n"
JOBS = "# release, deadline, cycles\n0 4 6\n\n2 3 4\n"
TASKS = "0 4 4 6\n# in each period\n2 4 1 4\n"

NEAREST = "%s: the job nearest to trouble is job 1: no cycle can be added to it\n%s\n%s\n"
ROOM = """\
The room of a job is the most cycles that can be added to it alone with all deadlines still met; one more is too many.
Cycles added to one job may take the room of others.
"""
WITH_MARGIN = "Added cycles come on top of those with the margin, and get no margin themselves.\n"
OF_TASKS = "A longer task has more cycles in each of its jobs, so that with several jobs in a round its room may be less than theirs.\n"
LISTED = "  job  release  deadline  cycles  room\n    1        2         3       4     0\n    0        0         4       6     6\n"
LISTED_BY_LINE = """\
  job  release  deadline  cycles  room  %s line
    1        2         3       4     0              %d
    0        0         4       6     6              %d
"""
NONE = "%s: there are no jobs, so none is nearest to trouble\n"


class NearestFolders(InFolder):
    def given(self, **files):
        """A site in text where nothing else is given."""
        return self.site(**{"levels_txt": LEVELS, "jobs_txt": JOBS, **files})

    def expect(self, words, status, printed, said=""):
        ended = self.run_command("nearest", *words)
        self.assertEqual((ended.returncode, ended.stdout, ended.stderr), (status, printed, said))

    def heading(self, *words, **files):
        """What is said first of a site, without its folder."""
        site = self.given(**files)
        ended = self.run_command("nearest", site, *words)
        self.assertEqual((ended.returncode, ended.stderr), (0, ""))
        return ended.stdout.splitlines()[0].removeprefix(f"{site}: ")


class Printed(NearestFolders):
    def test_every_form_alike(self):
        for files, table in (
            ({"jobs_tbl": TWO_JOBS, "levels_tbl": PAIR}, LISTED),
            ({"jobs_txt": JOBS, "levels_txt": LEVELS}, LISTED_BY_LINE % ("jobs.txt", 4, 2)),
            ({"jobs_csv": "release,deadline,cycles\n0,4,6\n2,3,4\n", "levels_tbl": PAIR}, LISTED_BY_LINE % ("jobs.csv", 3, 2)),
            # What idling draws is no matter, and the text is read before the bytes.
            ({"jobs_txt": "0 4 6\n2 3 4\n", "jobs_tbl": b"", "levels_txt": f"0 0\n{LEVELS}"}, LISTED_BY_LINE % ("jobs.txt", 2, 1)),
        ):
            site = self.site(**files)
            self.expect([site], 0, NEAREST % (site, "", table) + ROOM)
            self.assertEqual(len(os.listdir(site)), len(files), "nothing is written")

    def test_tasks(self):
        """The jobs are those of one round, each with its task and with the line of that."""
        repeats = "All that follows is of one round, which repeats every 4 ticks.\n"
        for files, table in (
            (
                {"tasks_txt": TASKS},
                "  job  release  deadline  cycles  room  task  tasks.txt line\n"
                "    1        2         3       4     0     1               3\n"
                "    0        0         4       6     6     0               1\n",
            ),
            (
                {"tasks_tbl": bytes.fromhex("0200 00000000 04000000 02000000 04000000 04000000 06000000 01000000 04000000")},
                "  job  release  deadline  cycles  room  task\n"
                "    1        2         3       4     0     1\n"
                "    0        0         4       6     6     0\n",
            ),
        ):
            site = self.site(levels_txt=LEVELS, **files)
            self.expect([site], 0, NEAREST % (site, repeats, table) + ROOM + OF_TASKS)

    def test_a_task_with_several_jobs(self):
        """Each job of a round has its own room, and a task that is longer by the least of them may not fit."""
        tasks = "0 2 2 3\n0 4 4 5\n"
        site = self.site(levels_txt=LEVELS, tasks_txt=tasks)
        ended = self.run_command("nearest", site)
        rows = [line.split() for line in ended.stdout.splitlines()[4:7]]
        self.assertEqual([(row[0], row[4], row[5]) for row in rows], [("0", "5", "0"), ("1", "5", "1"), ("2", "5", "0")])
        self.assertIn(OF_TASKS, ended.stdout)
        longer = self.site(levels_txt=LEVELS, tasks_txt=tasks.replace("2 2 3", "2 2 8"))
        self.assertEqual(self.run_command("nearest", longer).returncode, 1)

    def test_counts(self):
        """One cycle, many, and several jobs with the same room."""
        for jobs, said in (
            ("0 1 4\n", "the job nearest to trouble is job 0: no cycle can be added to it"),
            ("0 1 3\n", "the job nearest to trouble is job 0: at most 1 cycle can be added to it"),
            ("0 9 1\n0 4 2\n", "the job nearest to trouble is job 1: at most 14 cycles can be added to it"),
            ("0 1_000_000 1\n", "the job nearest to trouble is job 0: at most 3,999,999 cycles can be added to it"),
            ("0 1 4\n2 9 1\n3 4 4\n", "the jobs nearest to trouble are jobs 0 and 2: no cycle can be added to any of them"),
            ("0 1 3\n2 3 3\n", "the jobs nearest to trouble are jobs 0 and 1: at most 1 cycle can be added to any one of them"),
            (
                "0 4 2\n0 4 2\n0 4 2\n",
                "the jobs nearest to trouble are jobs 0, 1 and 2: at most 10 cycles can be added to any one of them",
            ),
        ):
            self.assertEqual(self.heading(jobs_txt=jobs), said)

    def test_no_jobs(self):
        for files in ({"jobs_txt": ""}, {"jobs_tbl": b"\0\0"}, {"tasks_txt": "# none\n"}):
            site = self.site(levels_txt=LEVELS, **files)
            self.expect([site], 0, NONE % site)
            self.expect([site, "--highest", "1", "--free", "5", "--margin", "50"], 0, NONE % site)

    def test_parameters(self):
        """With the deadlines and cycles as they were given beside the altered ones."""
        site = self.given(levels_txt=f"{LEVELS}6 30\n", jobs_txt="0 9 4\n\n2 8 2   # 3 with the margin\n")
        table = """\
  job  release  deadline  cycles  given deadline  given cycles  room  jobs.txt line
    1        2         3       3               8             2     1              3
    0        0         4       6               9             4     7              1
"""
        page = f"""\
{site}: the job nearest to trouble is job 1: at most 1 cycle can be added to it
Only the lowest 2 running levels are allowed, 5 ticks are kept free before each deadline and each job's cycles have a \
margin of 50 percent, rounded up.

{table}
{ROOM}{WITH_MARGIN}"""
        self.expect([site, "--highest", "2", "--free", "5", "--margin", "50"], 0, page)
        # Only what is altered.
        shown = self.run_command("nearest", site, "--free", "1").stdout
        self.assertIn("\n1 tick is kept free before each deadline.\n", shown)
        self.assertIn("  job  release  deadline  cycles  given deadline  room  jobs.txt line\n", shown)
        self.assertTrue(shown.endswith(f"\n{ROOM}"))
        shown = self.run_command("nearest", site, "--highest", "1").stdout
        self.assertIn("\nOnly the lowest running level is allowed.\n", shown)
        self.assertIn("  job  release  deadline  cycles  room  jobs.txt line\n", shown)

    def test_marks_are_not_read(self):
        """Neither those of a site that bound intervals nor those that are refused by other verbs."""
        for marks in ("1\n2\n", "3\n1\n", "x\n"):
            site = self.given(marks_txt=marks)
            self.expect([site], 0, NEAREST % (site, "", LISTED_BY_LINE % ("jobs.txt", 4, 2)) + ROOM)

    def test_several_folders(self):
        """An empty line follows each. The work goes on after one that is refused, and the worst status is the command's."""
        sites = [self.given(), self.given(jobs_txt="0 1 5\n"), self.given(jobs_txt="")]
        first, last = NEAREST % (sites[0], "", LISTED_BY_LINE % ("jobs.txt", 4, 2)) + ROOM + "\n", NONE % sites[2] + "\n"
        self.expect([sites[0], sites[2]], 0, first + last)
        more = "overfull: from 0 to 1 job 0 needs 1 cycle more than the top frequency gives"
        said = f"ramyearly: {sites[1]}/jobs.txt line 1: {more} (refusal 11, window 0 to 1, spare -1)\n"
        self.expect(sites, 1, first + last, said)
        missing = self.folder + "/none"
        self.expect([missing, sites[2]], 2, last, f"ramyearly: {missing}: no such folder\n")

    def test_the_example(self):
        """As it stands beside the site and in the README. The job with the fullest window of its own is not the nearest."""
        site = os.path.join("examples", "longer-upload")
        printed = read(os.path.join(ROOT, site, "expected-nearest.txt")).decode()
        ended = self.run_command("nearest", site, cwd=ROOT)
        self.assertEqual((ended.returncode, ended.stdout, ended.stderr), (0, printed, ""))
        indented = "".join(f"    {line}\n" if line else "\n" for line in printed.splitlines())
        self.assertTrue(indented in read(os.path.join(ROOT, "README.md")).decode())
        jobs = [[int(word.replace(",", "")) for word in line.split()] for line in printed.splitlines()[3:9]]
        self.assertEqual([job for job, *_, room, _ in jobs if room == 0], [2, 3])
        full = {job: cycles / (deadline - release) for job, release, deadline, cycles, *_ in jobs}
        self.assertEqual(max(full, key=full.get), 0)


class Refused(NearestFolders):
    def test_overfull(self):
        """In the words of planning, with the lines of the window's own jobs."""
        site = self.given(jobs_txt="0 2 4\n5 6 1\n\n0 2 5\n")
        more = "overfull: from 0 to 2 jobs 0 and 2 need 1 cycle more than the top frequency gives"
        said = f"ramyearly: {site}/jobs.txt lines 1 and 4: {more} (refusal 11, window 0 to 2, spare -1)\n"
        self.expect([site], 1, "", said)
        self.assertEqual(self.run_command("plan", site).stderr, said)
        window = "with margin 50 (refusal 11, window 0 to 2, spare -6)"
        ended = self.run_command("nearest", site, "--margin", "50")
        self.assertEqual((ended.returncode, ended.stdout), (1, ""))
        self.assertIn(window, ended.stderr)
        site = self.site(levels_txt=LEVELS, tasks_txt="\n0 4 1 5\n")
        said = "tasks.txt line 2: overfull: from 0 to 1 job 0 needs 1 cycle more than the top frequency gives"
        self.expect([site], 1, "", f"ramyearly: {site}/{said} (refusal 11, window 0 to 1, spare -1)\n")

    def test_refusals(self):
        """Of levels, jobs and tasks, with their lines."""
        for files, said in (
            ({"levels_txt": "300 90\n\n300 90\n"}, "levels.txt line 3: frequency 300 is not above 300 before it (refusal 4, entry 1)"),
            ({"jobs_txt": "# late\n0 4 6\n5 4 1\n"}, "jobs.txt line 3: release 5 is not before deadline 4 (refusal 9, entry 1)"),
            ({"jobs_txt": "0 4 6\n2 x 4\n"}, "jobs.txt line 2: deadline 'x' is not a whole number"),
            ({"jobs_csv": ""}, "jobs.csv: jobs.txt is there too; keep one of them"),
        ):
            site = self.given(**files)
            self.expect([site], 1, "", f"ramyearly: {site}/{said}\n")
        site = self.site(levels_txt=LEVELS, tasks_txt="0 4 4 6\n\n2 0 1 4\n")
        self.expect([site], 1, "", f"ramyearly: {site}/tasks.txt line 3: the period is 0 (refusal 28, entry 1)\n")

    def test_files_that_are_not_there(self):
        empty = "No such file or directory, so it counts as empty: 0 bytes, but the sizes alone take 2"
        site = self.site(jobs_txt=JOBS)
        self.expect([site], 1, "", f"ramyearly: {site}/levels.tbl: {empty} (refusal 1)\n")
        site = self.site(levels_txt=LEVELS)
        self.expect([site], 1, "", f"ramyearly: {site}/jobs.tbl: {empty} (refusal 6)\n")
        site = self.site(marks_txt="1\n")
        names = "jobs.txt or tasks.txt, levels.txt"
        said = f"ramyearly: {site}: no job list, no task list and no level list ({names}; --help says more)\n"
        self.expect([site], 1, "", said)

    def test_wrong_usage(self):
        for words, said in (
            ([], "the following arguments are required: DIR"),
            ([self.given(), "-o", self.folder], "unrecognized arguments: -o"),
        ):
            ended = self.run_command("nearest", *words)
            self.assertEqual((ended.returncode, ended.stdout), (2, ""))
            self.assertIn(f"ramyearly nearest: error: {said}", ended.stderr)
            usage = "usage: ramyearly nearest [-h] [--highest N] [--free N] [--margin N] DIR"
            self.assertIn(usage, " ".join(ended.stderr.split()))


if __name__ == "__main__":
    unittest.main()
