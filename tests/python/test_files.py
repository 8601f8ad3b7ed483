"""Files are written whole or not at all, whatever stops the command."""

import os
import signal
import stat
import subprocess
import sys
import unittest

from support import BACKWARDS, PACKAGES, PAIR, PLAN, PRICES, TWO_JOBS, InFolder, read, write

# Runs the command with one function of the system replaced, so that it stops at a chosen moment.
STOPPED = """
import os, signal, sys
from ramyearly import command
calls = 0
real = os.{function}
def stopping(*words):
    global calls
    calls += 1
    if calls == {call}:
        {stop}
    return real(*words)
os.{function} = stopping
sys.exit(command.main(sys.argv[1:]))
"""


class WithStops(InFolder):
    def run_stopped(self, function, call, stop, *words, ignored=()):
        """These signals are ignored, and the others are not, whatever the tests themselves were started with."""

        def set_signals():
            for number in (signal.SIGHUP, signal.SIGINT, signal.SIGTERM):
                signal.signal(number, signal.SIG_IGN if number in ignored else signal.SIG_DFL)

        script = STOPPED.format(function=function, call=call, stop=stop)
        settings = {"env": {**os.environ, "PYTHONPATH": PACKAGES}, "preexec_fn": set_signals}
        return subprocess.run([sys.executable, "-B", "-c", script, *words], capture_output=True, text=True, **settings)


class Stopped(WithStops):
    def planned(self):
        """A site with an older plan."""
        return self.site(jobs_tbl=TWO_JOBS, levels_tbl=PAIR, plan_tbl="old plan", prices_tbl="old prices")

    def contents(self, site):
        return read(os.path.join(site, "plan.tbl")), read(os.path.join(site, "prices.tbl"))

    def test_killed_while_writing(self):
        """A kill can't be caught: the old files stay, and what was begun has another name."""
        for call in (1, 2):
            site = self.planned()
            ended = self.run_stopped("fsync", call, "os.kill(os.getpid(), signal.SIGKILL)", "plan", site)
            self.assertEqual(ended.returncode, -signal.SIGKILL)
            self.assertEqual(self.contents(site), (b"old plan", b"old prices"))
            self.assertEqual(self.run_command("plan", site).returncode, 0)
            self.assertEqual(self.contents(site), (PLAN, PRICES))

    def test_stopped_while_writing(self):
        for number in (signal.SIGINT, signal.SIGTERM, signal.SIGHUP):
            for call in (1, 2):
                site = self.planned()
                ended = self.run_stopped("fsync", call, f"os.kill(os.getpid(), {int(number)})", "plan", site)
                self.assertEqual((ended.returncode, ended.stdout, ended.stderr), (-number, "", ""))
                self.assertEqual(self.contents(site), (b"old plan", b"old prices"))
                self.assertEqual(len(os.listdir(site)), 4, "nothing is left behind")

    def test_stopped_between_the_renames(self):
        """A signal waits until both files have their names."""
        for call in (1, 2):
            site = self.planned()
            ended = self.run_stopped("replace", call, f"os.kill(os.getpid(), {int(signal.SIGTERM)})", "plan", site)
            self.assertEqual(ended.returncode, -signal.SIGTERM)
            self.assertEqual(self.contents(site), (PLAN, PRICES))
            self.assertEqual(len(os.listdir(site)), 4)

    def test_a_signal_that_is_ignored(self):
        """As nohup has it: the run goes on."""
        site = self.planned()
        hangup = f"os.kill(os.getpid(), {int(signal.SIGHUP)})"
        ended = self.run_stopped("fsync", 1, hangup, "plan", site, ignored=[signal.SIGHUP])
        self.assertEqual(ended.returncode, 0)
        self.assertEqual(self.contents(site), (PLAN, PRICES))

    def test_a_rename_fails(self):
        site = self.site(jobs_tbl=TWO_JOBS, levels_tbl=PAIR)
        os.mkdir(os.path.join(site, "plan.tbl"))
        ended = self.run_command("plan", site)
        self.assertEqual((ended.returncode, ended.stdout), (2, ""))
        self.assertEqual(ended.stderr, f"ramyearly: {site}/plan.tbl: Is a directory\n")
        self.assertEqual(sorted(os.listdir(site)), ["jobs.tbl", "levels.tbl", "plan.tbl"])


class OrderingStopped(WithStops):
    def ordered(self):
        """A site with a plan that is not in order, and an older ordered plan."""
        files = {"plan_tbl": BACKWARDS, "prices_tbl": PRICES, "ordered_tbl": "old plan"}
        return self.site(jobs_tbl=TWO_JOBS, levels_tbl=PAIR, **files)

    def expect(self, site, ordered):
        files = [read(os.path.join(site, name)) for name in ("plan.tbl", "prices.tbl", "ordered.tbl")]
        self.assertEqual(files, [BACKWARDS, PRICES, ordered])

    def test_killed(self):
        site = self.ordered()
        ended = self.run_stopped("fsync", 1, "os.kill(os.getpid(), signal.SIGKILL)", "order", site)
        self.assertEqual(ended.returncode, -signal.SIGKILL)
        self.expect(site, b"old plan")
        self.assertEqual(self.run_command("order", site).returncode, 0)
        self.expect(site, PLAN)

    def test_stopped(self):
        """Before the file has its name the old one stays, and from then on the new one is there."""
        for function, ordered in (("fsync", b"old plan"), ("replace", PLAN)):
            for number in (signal.SIGINT, signal.SIGTERM, signal.SIGHUP):
                site = self.ordered()
                ended = self.run_stopped(function, 1, f"os.kill(os.getpid(), {int(number)})", "order", site)
                self.assertEqual((ended.returncode, ended.stdout, ended.stderr), (-number, "", ""))
                self.expect(site, ordered)
                self.assertEqual(len(os.listdir(site)), 5, "nothing is left behind")

    def test_a_folder_in_its_place(self):
        site = self.ordered()
        os.remove(os.path.join(site, "ordered.tbl"))
        os.mkdir(os.path.join(site, "ordered.tbl"))
        ended = self.run_command("order", site)
        said = f"ramyearly: {site}/ordered.tbl: Is a directory\n"
        self.assertEqual((ended.returncode, ended.stdout, ended.stderr), (2, "", said))
        self.assertEqual(len(os.listdir(site)), 5)


class FullDisk(InFolder):
    def test_no_room(self):
        for verb, name in (("plan", "plan.tbl"), ("order", "ordered.tbl")):
            with self.subTest(verb):
                self.try_no_room(verb, name)

    def try_no_room(self, verb, name):
        """In a file system of one page, which is full. Mounting wants a namespace of its own."""
        site = self.site(jobs_tbl=TWO_JOBS, levels_tbl=PAIR, plan_tbl=PLAN, prices_tbl=PRICES)
        out = self.site()
        script = (
            'file="$0/$1"; shift; mount -t tmpfs -o size=4k none "$0" && printf "old plan" >"$file" || exit 9\n'
            'cat /dev/zero >"$0/filler" 2>/dev/null && exit 9; "$@"; status=$?; ls -A "$0"; cat "$file"; exit $status'
        )
        command = [sys.executable, "-B", "-m", "ramyearly", verb, site, "-o", out]
        for spaces in (["unshare", "-m"], ["unshare", "-r", "-m"]):
            ended = subprocess.run(
                [*spaces, "sh", "-c", script, out, name, *command],
                capture_output=True, text=True, env={**os.environ, "PYTHONPATH": PACKAGES},
            )  # fmt: skip
            if ended.returncode not in (1, 9) or "No space" in ended.stderr:
                break
        else:
            self.skipTest("nothing can be mounted here")
        self.assertEqual((ended.returncode, ended.stdout), (2, f"filler\n{name}\nold plan"))
        self.assertEqual(ended.stderr, f"ramyearly: {out}/{name}: No space left on device\n")

    def test_a_file_that_may_not_grow(self):
        """The same, where nothing can be mounted."""
        script = 'ulimit -f 0; trap "" XFSZ; exec "$@"'
        for verb, files in (
            ("plan", {"plan_tbl": "old plan"}),
            ("order", {"plan_tbl": PLAN, "prices_tbl": PRICES, "ordered_tbl": "old plan"}),
        ):
            site = self.site(jobs_tbl=TWO_JOBS, levels_tbl=PAIR, **files)
            before = {name: read(os.path.join(site, name)) for name in os.listdir(site)}
            command = [sys.executable, "-B", "-m", "ramyearly", verb, site]
            ended = subprocess.run(
                ["sh", "-c", script, "sh", *command], capture_output=True, text=True, env={**os.environ, "PYTHONPATH": PACKAGES}
            )
            self.assertEqual(ended.returncode, 2)
            self.assertIn("File too large", ended.stderr)
            self.assertEqual({name: read(os.path.join(site, name)) for name in os.listdir(site)}, before)

    def test_standard_output(self):
        site = self.site(jobs_tbl=TWO_JOBS, levels_tbl=PAIR)
        span = ["span", "0", "4", site]
        for words in ([site], ["--help"], ["plan", site], ["order", site], span, ["nearest", site], ["decode", site], [site, site]):
            with open("/dev/full", "wb") as full:
                ended = self.run_command(*words, capture_output=False, stdout=full, stderr=subprocess.PIPE)
            self.assertEqual((ended.returncode, ended.stderr), (2, "ramyearly: standard output: No space left on device\n"))

    def test_a_report_to_a_device(self):
        """A name that is no plain file is written to, and is not replaced."""
        site = self.site(jobs_tbl=TWO_JOBS, levels_tbl=PAIR)
        ended = self.run_command("report", site, "-o", "/dev/full")
        said = "ramyearly: /dev/full: No space left on device\n"
        self.assertEqual((ended.returncode, ended.stdout, ended.stderr), (2, "", said))
        self.assertTrue(stat.S_ISCHR(os.stat("/dev/full").st_mode))
        ended = self.run_command("report", site, "-o", "/dev/null")
        self.assertEqual((ended.returncode, ended.stdout), (0, ""))
        self.assertTrue(stat.S_ISCHR(os.stat("/dev/null").st_mode))

    def test_an_ordered_plan_to_a_device(self):
        site = self.site(jobs_tbl=TWO_JOBS, levels_tbl=PAIR, plan_tbl=PLAN, prices_tbl=PRICES)
        os.symlink("/dev/full", os.path.join(site, "ordered.tbl"))
        ended = self.run_command("order", site)
        said = f"ramyearly: {site}/ordered.tbl: No space left on device\n"
        self.assertEqual((ended.returncode, ended.stdout, ended.stderr), (2, "", said))
        self.assertTrue(stat.S_ISCHR(os.stat("/dev/full").st_mode))


class Names(InFolder):
    def test_permissions(self):
        site = self.site(jobs_tbl=TWO_JOBS, levels_tbl=PAIR, plan_tbl="old plan")
        os.chmod(os.path.join(site, "plan.tbl"), 0o640)
        before = os.umask(0o027)
        self.addCleanup(os.umask, before)
        self.assertEqual(self.run_command("plan", site).returncode, 0)
        self.assertEqual(self.run_command("order", site).returncode, 0)
        os.umask(before)
        names = ("plan.tbl", "prices.tbl", "ordered.tbl")
        modes = [stat.S_IMODE(os.stat(os.path.join(site, name)).st_mode) for name in names]
        self.assertEqual(modes, [0o640, 0o640, 0o640])

    def test_a_link_stays_a_link(self):
        site, other = self.site(jobs_tbl=TWO_JOBS, levels_tbl=PAIR), self.site()
        write(os.path.join(other, "kept"), "old plan")
        os.symlink(os.path.join(other, "kept"), os.path.join(site, "plan.tbl"))
        self.assertEqual(self.run_command("plan", site).returncode, 0)
        self.assertTrue(os.path.islink(os.path.join(site, "plan.tbl")))
        self.assertEqual(read(os.path.join(other, "kept")), PLAN)

    def test_an_ordered_plan_through_a_link(self):
        """A link to the plan itself puts the ordered one in its place."""
        site = self.site(jobs_tbl=TWO_JOBS, levels_tbl=PAIR, plan_tbl=BACKWARDS, prices_tbl=PRICES)
        os.symlink("plan.tbl", os.path.join(site, "ordered.tbl"))
        self.assertEqual(self.run_command("order", site).returncode, 0)
        self.assertTrue(os.path.islink(os.path.join(site, "ordered.tbl")))
        self.assertEqual(read(os.path.join(site, "plan.tbl")), PLAN)


if __name__ == "__main__":
    unittest.main()
