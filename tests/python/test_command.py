"""The command's verbs, as a shell sees them."""

import os
import pty
import subprocess
import sys
import unittest

from ramyearly import command
from support import LISTING, PACKAGES, PAIR, PLAN, PRICES, TWO_JOBS, InFolder, read


class Verbs(InFolder):
    def good(self, **named):
        return self.site(jobs_txt="0 4 6\n2 3 4\n", levels_txt="2 10\n4 20\n", **named)

    def overfull(self, **named):
        return self.site(jobs_txt="0 1 5\n", levels_txt="2 10\n4 20\n", **named)

    def expect(self, words, status, printed, said=""):
        ended = self.run_command(*words)
        self.assertEqual((ended.returncode, ended.stdout, ended.stderr), (status, printed, said))

    def test_listing(self):
        self.expect([self.good()], 0, LISTING)
        self.expect([self.site(jobs_tbl=TWO_JOBS, levels_tbl=PAIR)], 0, LISTING)
        # The text wins over the bytes.
        self.expect([self.site(jobs_tbl=TWO_JOBS, levels_tbl=b"", levels_csv="2,10\n4,20\n")], 0, LISTING)

    def test_listing_of_a_refused_site(self):
        site = self.site(jobs_txt="0 1 1\n", levels_txt="300 90\n# again\n300 90\n")
        said = f"ramyearly: {site}/levels.txt line 3: frequency 300 is not above 300 before it (refusal 4, entry 1)\n"
        self.expect([site], 1, "refused 4 1\n", said)
        site = self.overfull()
        said = "overfull: from 0 to 1 job 0 needs 1 cycle more than the top frequency gives (refusal 11, window 0 to 1, spare -1)"
        self.expect([site], 1, "overfull 0 1 -1\n", f"ramyearly: {site}/jobs.txt line 1: {said}\n")

    def test_plan_and_check(self):
        site = self.good()
        wrote = f"wrote {site}/plan.tbl and {site}/prices.tbl"
        self.expect(["plan", site], 0, f"{site}: jobs 2, intervals 3, steps 3, energy 2200; {wrote}\n")
        self.assertEqual(read(os.path.join(site, "plan.tbl")), PLAN)
        self.assertEqual(read(os.path.join(site, "prices.tbl")), PRICES)
        self.expect(["check", site], 0, f"{site}: accepted, energy 2200\n")

    def test_plan_elsewhere(self):
        site, out = self.good(), self.site()
        wrote = f"wrote {out}/plan.tbl and {out}/prices.tbl"
        self.expect(["plan", site, "-o", out], 0, f"{site}: jobs 2, intervals 3, steps 3, energy 2200; {wrote}\n")
        self.assertEqual(sorted(os.listdir(site)), ["jobs.txt", "levels.txt"])
        self.assertEqual(sorted(os.listdir(out)), ["plan.tbl", "prices.tbl"])
        self.expect(["plan", site, "-o", out + "/x"], 2, "", f"ramyearly: {out}/x: no such folder\n")

    def test_a_refused_plan_leaves_the_old_files(self):
        site = self.overfull(plan_tbl="old plan", prices_tbl="old prices")
        self.assertEqual(self.run_command("plan", site).returncode, 1)
        self.assertEqual(read(os.path.join(site, "plan.tbl")), b"old plan")
        self.assertEqual(read(os.path.join(site, "prices.tbl")), b"old prices")

    def test_report(self):
        site = self.good()
        self.expect(["report", site], 0, f"{site}: wrote {site}/report.html\n")
        self.assertIn(b"2,200", read(os.path.join(site, "report.html")))
        page = os.path.join(self.folder, "a page.html")
        self.expect(["report", site, "-o", page], 0, f"{site}: wrote {page}\n")
        self.assertEqual(read(page), read(os.path.join(site, "report.html")))
        self.expect(["report", site, "-o", "-"], 0, read(page).decode())

    def test_report_of_a_refused_site(self):
        """The page says what is wrong, and so does the command."""
        for site, said in (
            (self.overfull(), "jobs.txt line 1: overfull"),
            (self.site(levels_txt="1001 1\n", jobs_txt=""), "levels.txt line 1: frequency 1001"),
            (self.site(levels_txt="0 1\n", jobs_txt=""), "levels.txt line 1: the idle entry stands alone"),
            (self.site(levels_txt="2 x\n", jobs_txt=""), "levels.txt line 1: voltage 'x'"),
        ):
            ended = self.run_command("report", site)
            self.assertEqual((ended.returncode, ended.stdout), (1, f"{site}: wrote {site}/report.html\n"))
            self.assertIn(said, ended.stderr)
            self.assertIn(b"line 1", read(os.path.join(site, "report.html")))

    def test_names_with_spaces(self):
        site = self.good(name="a site # of 'ours'")
        self.expect([site], 0, LISTING)
        self.assertEqual(self.run_command("plan", site).returncode, 0)
        self.expect(["check", site], 0, f"{site}: accepted, energy 2200\n")
        self.assertEqual(self.run_command("order", site).returncode, 0)
        self.assertTrue(self.run_command("span", "0", "4", site).stdout.startswith(f"{site}: from tick 0 "))
        self.assertTrue(self.run_command("nearest", site).stdout.startswith(f"{site}: the job nearest to trouble is job 1"))
        self.assertEqual(self.run_command("report", site).returncode, 0)

    def test_names_that_are_no_text(self):
        site = self.good(name="caf\udce9")
        for verb in ("plan", "order"):
            ended = self.run_command(verb, site, text=False)
            self.assertEqual((ended.returncode, ended.stderr), (0, b""))
            self.assertIn(b"caf\xe9: jobs 2", ended.stdout)
        for words, said in ((["span", "0", "4"], b"caf\xe9: from tick 0"), (["nearest"], b"caf\xe9: the job nearest")):
            ended = self.run_command(*words, site, text=False)
            self.assertEqual((ended.returncode, ended.stderr), (0, b""))
            self.assertIn(said, ended.stdout)
        self.assertEqual(self.run_command("report", site, text=False).returncode, 0)

    def test_folders_with_the_name_of_a_verb(self):
        self.good(name="plan")
        self.assertEqual(self.run_command("./plan", cwd=self.folder).stdout, LISTING)
        self.assertEqual(self.run_command("check", "plan", cwd=self.folder).returncode, 1)
        self.assertEqual(self.run_command("plan", "plan", cwd=self.folder).returncode, 0)

    def test_a_name_that_begins_with_a_dash(self):
        self.good(name="-o")
        self.assertEqual(self.run_command("--", "-o", cwd=self.folder).stdout, LISTING)

    def test_several_folders(self):
        good, overfull, missing, text = self.good(), self.overfull(), self.folder + "/none", self.site(jobs_txt="0 x 1\n")
        ended = self.run_command(good, overfull, good)
        self.assertEqual(ended.returncode, 1)
        self.assertEqual(ended.stdout, f"# {good}\n{LISTING}# {overfull}\noverfull 0 1 -1\n# {good}\n{LISTING}")
        ended = self.run_command("plan", overfull, text, missing, good)
        self.assertEqual(ended.returncode, 2)
        self.assertTrue(ended.stdout.startswith(f"{good}: jobs 2,"))
        self.assertEqual([line.count(":") > 1 for line in ended.stderr.splitlines()], [True] * 3)
        self.assertIn(f"{text}/jobs.txt line 1: deadline 'x' is not a whole number", ended.stderr)
        self.assertIn(f"{missing}: no such folder", ended.stderr)
        ended = self.run_command("check", good, overfull)
        self.assertEqual((ended.returncode, ended.stdout), (1, f"{good}: accepted, energy 2200\n"))

    def test_wrong_usage(self):
        good = self.good()
        for words in ([], ["plan"], ["check"], ["fits"], ["order"], ["boards"], ["span"], ["nearest"], ["report"], ["--nonsense"],
                      ["plan", "--nonsense", good], ["order", "--nonsense", good], ["boards", "--nonsense", good],
                      ["span", "0", "4"], ["span", good], ["span", "0", "x", good],
                      ["span", "0", "4", "--nonsense", good], ["report", good, good], ["plan", good, good, "-o", self.folder],
                      ["order", good, good, "-o", self.folder], [self.folder + "/none"], [good + "/jobs.txt"]):  # fmt: skip
            ended = self.run_command(*words)
            self.assertEqual((ended.returncode, ended.stdout), (2, ""), words)
            self.assertIn("ramyearly", ended.stderr)
        self.assertEqual(sorted(os.listdir(good)), ["jobs.txt", "levels.txt"])

    def test_no_tables(self):
        site = self.site()
        names = "jobs.txt or tasks.txt, levels.txt"
        said = f"ramyearly: {site}: no job list, no task list and no level list ({names}; --help says more)\n"
        self.expect([site], 1, "", said)
        self.expect(["report", site], 1, "", said)
        self.assertEqual(os.listdir(site), [])

    def test_help(self):
        ended = self.run_command("--help")
        self.assertEqual((ended.returncode, ended.stderr), (0, ""))
        for verb, module in command.VERBS.items():
            self.assertTrue(module.USAGE[0].startswith(f"{verb} "))
            self.assertIn(f"ramyearly {module.USAGE[0]}", ended.stdout)
            of_verb = self.run_command(verb, "--help")
            self.assertEqual((of_verb.returncode, of_verb.stderr), (0, ""))
            self.assertIn(f"usage: ramyearly {verb}", of_verb.stdout)
            self.assertIn("exit status", of_verb.stdout)
            self.assert_tasks_are_named(of_verb.stdout)
            self.assert_marks_are_named(of_verb.stdout)
            if verb == "span":
                # It reads no levels, and says nothing of them but that.
                self.assertNotIn("idle entry", of_verb.stdout)
            else:
                self.assert_idling_is_named(of_verb.stdout)
        for words in (["--help"], [".", "--help"]):
            shown = self.run_command(*words).stdout
            self.assert_tasks_are_named(shown)
            self.assert_marks_are_named(shown)
            self.assert_idling_is_named(shown)
            self.assertIn("0 5", shown)
        self.expect(["--version"], 0, "ramyearly 1.0.0\n")

    def assert_tasks_are_named(self, text):
        """The help says that there are task lists, and which columns they have."""
        for word in ("tasks.txt", "tasks.csv", "tasks.tbl", "phase", "period", "deadline", "cycles"):
            self.assertIn(word, text)

    def assert_marks_are_named(self, text):
        """The help says that there are mark lists."""
        for word in ("marks.txt", "marks.csv", "marks.tbl", "tick"):
            self.assertIn(word, text)

    def assert_idling_is_named(self, text):
        """The help says that a level list may begin with an idle entry, and what that is."""
        for word in ("idle entry", "frequency 0"):
            self.assertIn(word, text)

    def test_a_reader_that_stops(self):
        script = '"$@" | head -n 1; exit ${PIPESTATUS[0]}'
        words = [sys.executable, "-B", "-m", "ramyearly", *[self.good()] * 300]
        ended = subprocess.run(
            ["bash", "-c", script, "bash", *words], capture_output=True, text=True, env={**os.environ, "PYTHONPATH": PACKAGES}
        )
        self.assertEqual((len(ended.stdout.splitlines()), ended.stderr), (1, ""))

    def test_progress(self):
        """On a terminal a line says which folder is at work, and it is gone where a result stands."""
        sites = [self.good(), self.overfull()]
        ours, theirs = pty.openpty()
        ended = self.run_command("plan", *sites, capture_output=False, stdout=subprocess.PIPE, stderr=theirs)
        os.close(theirs)
        shown = b""
        while part := self.read_terminal(ours):
            shown += part
        os.close(ours)
        self.assertEqual(ended.returncode, 1)
        self.assertIn(f"ramyearly: 1 of 2: {sites[0]}\r\x1b[K".encode(), shown)
        self.assertIn(f"ramyearly: 2 of 2: {sites[1]}\r\x1b[K".encode() + b"ramyearly: ", shown)
        self.assertNotIn("of 2", self.run_command("plan", *sites).stderr)

    def read_terminal(self, handle):
        try:
            return os.read(handle, 65536)
        except OSError:
            return b""


if __name__ == "__main__":
    unittest.main()
