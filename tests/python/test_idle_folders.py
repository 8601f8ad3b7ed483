"""Folders whose level list begins with an idle entry, by each verb, and the text and bytes of such a list."""

import os
import unittest

from ramyearly import tables
from support import LISTING, ROOT, InFolder, read

JOBS = "0 10 600\n4 8 500\n30 40 700\n"
FORMS = {
    "levels_txt": "# a board\n\n  0  5   # idle draw\n100 10\n200 10\n",
    "levels_csv": b"\xef\xbb\xbffrequency,voltage\r\n0,5\r\n100,10\r\n200,10\r\n",
    "levels_tbl": bytes.fromhex("0300 0000 6400 c800 0500 0a00 0a00"),
}
TEXT = "# levels 3\n# the first entry is the idle entry: frequency 0 and the idle draw, in thousands of power units\n"


class Folders(InFolder):
    """Each verb takes a level list with an idle entry."""

    def expect(self, words, printed):
        ended = self.run_command(*words)
        self.assertEqual((ended.returncode, ended.stdout, ended.stderr), (0, printed, ""))

    def test_every_form_alike(self):
        listing = read(os.path.join(ROOT, "examples", "idle-draw", "expected.txt")).decode()
        for name, content in FORMS.items():
            site = self.site(jobs_txt=JOBS, **{name: content})
            self.expect([site], listing)
            wrote = f"wrote {site}/plan.tbl and {site}/prices.tbl"
            self.expect(["plan", site], f"{site}: jobs 3, intervals 5, steps 4, energy 295000; {wrote}\n")
            self.expect(["check", site], f"{site}: accepted, energy 295000\n")
            ordered = f"jobs 3, intervals 5, steps 4, in order already; wrote {site}/ordered.tbl"
            self.expect(["order", site], f"{site}: {ordered}\n")
            touched = self.run_command("span", "9", "30", site).stdout
            self.assertTrue(touched.endswith("\nThe nearest deadline at or after tick 9 is tick 10, of job 0.\n"))
            self.expect(["report", site], f"{site}: wrote {site}/report.html\n")
            self.assertIn(b"295,000", read(os.path.join(site, "report.html")))

    def test_encode_and_decode(self):
        for name in ("levels_txt", "levels_csv"):
            site, text, again = self.site(**{name: FORMS[name]}), self.site(), self.site()
            self.expect(["encode", site], "")
            self.assertEqual(read(os.path.join(site, "levels.tbl")), FORMS["levels_tbl"])
            self.expect(["decode", "--csv", site, text], "")
            self.assertEqual(read(os.path.join(text, "levels.csv")).decode(), TEXT + "frequency,voltage\n0,5\n100,10\n200,10\n")
            self.expect(["encode", text, again], "")
            self.assertEqual(read(os.path.join(again, "levels.tbl")), FORMS["levels_tbl"])
        site = self.site(levels_tbl=FORMS["levels_tbl"])
        self.expect(["decode", site], f"# levels.tbl\n{TEXT}# frequency voltage\n0 5\n100 10\n200 10\n")

    def test_any_draw_has_room(self):
        for draw in (0, 1, 65535):
            entries, lines = tables.parse_text(f"0 {draw}\n100 10\n", tables.LEVELS, "levels.txt")
            self.assertEqual((entries, lines), ([(0, draw), (100, 10)], [1, 2]))
            data = tables.to_bytes(entries, tables.LEVELS)
            self.assertEqual(tables.from_bytes(data, tables.LEVELS, "")[1], entries)

    def test_errors_say_what_the_place_means(self):
        columns = "columns, but a first entry of frequency 0 has 2: frequency, idle draw"
        for text, line, said in (
            ("0 65536\n", 1, "idle draw '65536' does not fit in 16 bits (0 to 65535)"),
            ("# a\n00 -1\n", 2, "idle draw '-1' does not fit in 16 bits (0 to 65535)"),
            ("frequency,voltage\n0,x\n", 2, "idle draw 'x' is not a whole number"),
            ("0,\n", 1, "idle draw is empty"),
            ("0 5 10\n", 1, f"3 {columns}"),
            ("100 10\n0 x\n", 2, "voltage 'x' is not a whole number"),
            ("0 5\n0 x\n", 2, "voltage 'x' is not a whole number"),
        ):
            with self.assertRaises(tables.TableError) as caught:
                tables.parse_text(text, tables.LEVELS, "levels.txt")
            self.assertEqual(str(caught.exception), f"levels.txt line {line}: {said}")
        # A job may begin with 0.
        with self.assertRaises(tables.TableError) as caught:
            tables.parse_text("0 x 1\n", tables.JOBS, "jobs.txt")
        self.assertEqual(str(caught.exception), "jobs.txt line 1: deadline 'x' is not a whole number")

    def test_a_draw_of_nothing(self):
        site = self.site(jobs_txt="0 4 6\n2 3 4\n", levels_txt="0 0\n2 10\n4 20\n")
        self.expect([site], LISTING)

    def test_tasks(self):
        """The plan is that of one round, from its earliest release to its latest deadline."""
        site, out = self.site(levels_txt=FORMS["levels_txt"], tasks_txt="10 40 10 600\n"), self.site()
        self.expect([site], "sizes 1 1 1\nspan 10 20 600 1 600 100 1\nstep 0 0 600\nenergy 80000\n")
        wrote = f"wrote {site}/plan.tbl and {site}/prices.tbl"
        self.expect(["plan", site], f"{site}: jobs 1, intervals 1, steps 1, energy 80000, repeats every 40 ticks; {wrote}\n")
        self.expect(["check", site], f"{site}: accepted, energy 80000, repeats every 40 ticks\n")
        self.expect(["rounds", site], "# repeats every 40 ticks\n# jobs 1\n# release deadline cycles\n10 20 600\n")
        self.expect(["rounds", site, out], "")
        self.assertEqual(read(os.path.join(out, "levels.tbl")), FORMS["levels_tbl"])
        wrote = f"wrote {out}/plan.tbl and {out}/prices.tbl"
        self.expect(["plan", out], f"{out}: jobs 1, intervals 1, steps 1, energy 80000; {wrote}\n")

    def test_the_example(self):
        """Without its idle entry the lower level does not work: then only the cycles are paid, 100 for each."""
        example = os.path.join(ROOT, "examples", "idle-draw")
        for table, text in ((tables.LEVELS, "0 5\n100 10\n200 10\n"), (tables.JOBS, JOBS)):
            entries, _ = tables.read_text(os.path.join(example, table.name + ".txt"), table)
            self.assertEqual(entries, tables.parse_text(text, table, "")[0])
        site = self.site(levels_txt="100 10\n200 10\n", jobs_txt=JOBS)
        self.assertIn("energy 180000", self.run_command("plan", site).stdout)


if __name__ == "__main__":
    unittest.main()
