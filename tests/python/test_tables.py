"""Tables in text and in bytes, and the verbs that turn one into the other."""

import os
import random

from ramyearly import tables
from support import PAIR, PLAN, PRICES, ROOT, TWO_JOBS, InFolder, read


class Encoding(InFolder):
    def test_document_01(self):
        site = self.site(levels_txt="2 10\n4 20\n", jobs_txt="0 4 6\n2 3 4\n")
        self.assertEqual(self.run_command("encode", site).returncode, 0)
        self.assertEqual(read(os.path.join(site, "levels.tbl")), PAIR)
        self.assertEqual(read(os.path.join(site, "jobs.tbl")), TWO_JOBS)

    def test_forms_of_text(self):
        plain = [(0, 4, 6), (2, 3, 1000)]
        for text in (
            "0 4 6\n2 3 1000",
            "0,4,6\n2,3,1000\n",
            "# jobs\n\n  0\t4 , 6  # first\n2, 3, 1_000\n\n",
            "release,deadline,cycles\r\n0,4,6\r\n2,3,1000\r\n",
            "# names\nRelease Deadline Cycles\n00 04 6\n2 3 1000\n",
        ):
            self.assertEqual(tables.parse_text(text, tables.JOBS, "jobs.txt")[0], plain)

    def test_mark_before_the_text(self):
        site = self.site(jobs_csv=b"\xef\xbb\xbfrelease,deadline,cycles\r\n0,4,6\r\n2,3,4\r\n")
        self.assertEqual(self.run_command("encode", site).returncode, 0)
        self.assertEqual(read(os.path.join(site, "jobs.tbl")), TWO_JOBS)

    def test_no_entries(self):
        site = self.site(jobs_txt="# none\n")
        self.assertEqual(self.run_command("encode", site).returncode, 0)
        self.assertEqual(read(os.path.join(site, "jobs.tbl")), b"\0\0")

    def test_limits_are_the_planners(self):
        text = "9 2 0\n0 4294967295 4294967295\n" + "0 1 1\n" * 70
        entries, _ = tables.parse_text(text, tables.JOBS, "jobs.txt")
        self.assertEqual(tables.from_bytes(tables.to_bytes(entries, tables.JOBS), tables.JOBS, "")[1], entries)

    def test_another_folder(self):
        site, out = self.site(levels_csv="2,10\n4,20\n"), self.site()
        self.assertEqual(self.run_command("encode", site, out).returncode, 0)
        self.assertEqual(os.listdir(site), ["levels.csv"])
        self.assertEqual(read(os.path.join(out, "levels.tbl")), PAIR)

    def test_errors_name_the_line(self):
        columns = "but a job has 3: release, deadline, cycles"
        for text, line, said in (
            ("0 4 6\n\n2 x 4\n", 3, "deadline 'x' is not a whole number"),
            ("0 4 6.5\n", 1, "cycles '6.5' is not a whole number"),
            ("0 4 1__0\n", 1, "cycles '1__0' is not a whole number"),
            ("0 4 ٣\n", 1, "cycles '٣' is not a whole number"),
            ("0,,6\n", 1, "deadline is empty"),
            ("-1 4 6\n", 1, "release '-1' does not fit in 32 bits (0 to 4294967295)"),
            ("0 4 6\n0 4 4294967296\n", 2, "cycles '4294967296' does not fit in 32 bits (0 to 4294967295)"),
            ("0 " + "9" * 5000 + " 6", 1, "deadline '" + "9" * 5000 + "' does not fit in 32 bits (0 to 4294967295)"),
            ("# jobs\n0 4\n", 2, "2 columns, " + columns),
            ("0\n", 1, "1 column, " + columns),
            ("0,4,6,\n", 1, "4 columns, " + columns),
            ("0 4 6\nrelease,deadline,cycles\n", 2, "release 'release' is not a whole number"),
            ("0 1 1\n" * 65536, 65536, "more than 65535 entries do not fit in the count's 16 bits"),
        ):
            with self.assertRaises(tables.TableError) as caught:
                tables.parse_text(text, tables.JOBS, "jobs.txt")
            self.assertEqual(str(caught.exception), f"jobs.txt line {line}: {said}")
        with self.assertRaises(tables.TableError) as caught:
            tables.parse_text("2 10\n65536 20\n", tables.LEVELS, "levels.csv")
        self.assertEqual(str(caught.exception), "levels.csv line 2: frequency '65536' does not fit in 16 bits (0 to 65535)")

    def test_an_error_writes_nothing(self):
        site = self.site(jobs_txt="0 4 6\n", levels_txt="2 10\n4\n")
        ended = self.run_command("encode", site)
        self.assertEqual(ended.returncode, 1)
        self.assertEqual(ended.stderr, f"ramyearly: {site}/levels.txt line 2: 1 column, but a level has 2: frequency, voltage\n")
        self.assertEqual(sorted(os.listdir(site)), ["jobs.txt", "levels.txt"])

    def test_errors_of_folders(self):
        both = self.site(jobs_txt="", jobs_csv="")
        binary = self.site(jobs_txt=b"0 4 6\n\xff\xfe\n")
        none = self.site()
        names = "tasks.txt, tasks.csv, jobs.txt, jobs.csv, marks.txt, marks.csv, levels.txt, levels.csv"
        for site, said in (
            (both, f"ramyearly: {both}/jobs.csv: jobs.txt is there too; keep one of them\n"),
            (binary, f"ramyearly: {binary}/jobs.txt line 2: this is not text\n"),
            (none, f"ramyearly: {none}: no table in text ({names})\n"),
        ):
            ended = self.run_command("encode", site)
            self.assertEqual((ended.returncode, ended.stderr), (1, said))


class Decoding(InFolder):
    def test_all_tables_as_text(self):
        site = self.site(jobs_tbl=TWO_JOBS, levels_tbl=PAIR, plan_tbl=PLAN, prices_tbl=PRICES, ordered_tbl=PLAN)
        ended = self.run_command("decode", site)
        self.assertEqual((ended.returncode, ended.stderr), (0, ""))
        self.assertEqual(
            ended.stdout,
            "# jobs.tbl\n# jobs 2\n# release deadline cycles\n0 4 6\n2 3 4\n"
            "# levels.tbl\n# levels 2\n# frequency voltage\n2 10\n4 20\n"
            "# plan.tbl\n# intervals 3, steps 3\n# interval job cycles\n0 0 4\n1 1 4\n2 0 2\n"
            "# prices.tbl\n# intervals 3\n# end price\n2 1\n3 2\n4 1\n"
            "# ordered.tbl\n# intervals 3, steps 3\n# interval job cycles\n0 0 4\n1 1 4\n2 0 2\n",
        )

    def test_wrong_lengths(self):
        for table, data, said in (
            (tables.JOBS, b"", "0 bytes, but the sizes alone take 2"),
            (tables.JOBS, b"\1", "1 byte, but the sizes alone take 2"),
            (tables.JOBS, TWO_JOBS[:-1], "25 bytes, but jobs number 2, which takes 26"),
            (tables.LEVELS, PAIR + b"\0", "11 bytes, but levels number 2, which takes 10"),
            (tables.TASKS, b"\1", "1 byte, but the sizes alone take 2"),
            (tables.TASKS, b"\1" + bytes(16), "17 bytes, but tasks number 1, which takes 18"),
            (tables.PLAN, PLAN[:3], "3 bytes, but the sizes alone take 4"),
            (tables.PLAN, PLAN[:-1], "21 bytes, but steps number 3, which takes 22"),
            (tables.PRICES, PRICES + b"\0", "18 bytes, but intervals number 3, which takes 17"),
        ):
            with self.assertRaises(tables.TableError) as caught:
                tables.from_bytes(data, table, table.name + ".tbl")
            self.assertEqual(str(caught.exception), f"{table.name}.tbl: {said}")

    def test_text_is_not_written_over(self):
        site = self.site(jobs_tbl=TWO_JOBS, levels_tbl=PAIR, levels_csv="1,1\n")
        ended = self.run_command("decode", site, site)
        said = f"ramyearly: {site}/levels.csv: is there already, and is not written over\n"
        self.assertEqual((ended.returncode, ended.stderr), (1, said))
        self.assertEqual(sorted(os.listdir(site)), ["jobs.tbl", "levels.csv", "levels.tbl"])

    def test_nothing_to_decode(self):
        site = self.site(jobs_txt="0 4 6\n")
        ended = self.run_command("decode", site)
        names = "tasks.tbl, jobs.tbl, marks.tbl, levels.tbl, plan.tbl, prices.tbl, ordered.tbl"
        said = f"ramyearly: {site}: no table in bytes ({names})\n"
        self.assertEqual((ended.returncode, ended.stderr), (1, said))


class RoundTrips(InFolder):
    def entries(self, draw, table):
        return [tuple(draw.randrange(2**bits) for _, bits in table.columns()) for _ in range(draw.randrange(100))]

    def test_text_bytes_text(self):
        draw = random.Random(1)
        for _ in range(200):
            for table in tables.SITE_TABLES:
                entries = self.entries(draw, table)
                text = tables.to_text([len(entries)], entries, table, draw.random() < 0.5)
                read_back, _ = tables.parse_text(text, table, "")
                self.assertEqual(read_back, entries)
                self.assertEqual(tables.from_bytes(tables.to_bytes(read_back, table), table, "")[1], entries)

    def test_bytes_text_bytes(self):
        draw = random.Random(2)
        for _ in range(200):
            for table in tables.SITE_TABLES:
                count = draw.randrange(100)
                width = sum(bits // 8 for _, bits in table.columns())
                data = count.to_bytes(2, "little") + draw.randbytes(count * width)
                text = tables.to_text(*tables.from_bytes(data, table, ""), table)
                self.assertEqual(tables.to_bytes(tables.parse_text(text, table, "")[0], table), data)

    def test_plans(self):
        """In text a plan has intervals and jobs in place of cells. The number of its intervals stands in a comment alone."""
        draw = random.Random(3)
        for _ in range(200):
            entries = self.entries(draw, tables.PLAN)
            for table in (tables.PLAN, tables.ORDERED):
                text = tables.to_text([draw.randrange(136), len(entries)], entries, table, draw.random() < 0.5)
                self.assertEqual(tables.parse_text(text, table, "")[0], entries)

    def test_folders(self):
        for words, ending in ((), ".txt"), (("--csv",), ".csv"):
            site, text, again = self.site(jobs_tbl=TWO_JOBS, levels_tbl=PAIR), self.site(), self.site()
            self.assertEqual(self.run_command("decode", *words, site, text).returncode, 0)
            self.assertEqual(sorted(os.listdir(text)), ["jobs" + ending, "levels" + ending])
            self.assertEqual(self.run_command("encode", text, again).returncode, 0)
            self.assertEqual(read(os.path.join(again, "jobs.tbl")), TWO_JOBS)
            self.assertEqual(read(os.path.join(again, "levels.tbl")), PAIR)

    def test_examples(self):
        """Every example has both tables, in a form that the converter takes."""
        examples = os.path.join(ROOT, "examples")
        for name in sorted(os.listdir(examples)):
            site = os.path.join(examples, name)
            for table in (tables.work_table(site), tables.LEVELS):
                path = tables.text_file(site, table)
                if path:
                    tables.read_text(path, table)
                else:
                    path = os.path.join(site, table.name + ".tbl")
                    tables.from_bytes(read(path), table, path)
        # The example in bytes is the first one encoded.
        for table in (tables.JOBS, tables.LEVELS):
            entries, _ = tables.read_text(os.path.join(examples, "first", table.name + ".txt"), table)
            data = read(os.path.join(examples, "first-tables", table.name + ".tbl"))
            self.assertEqual(tables.to_bytes(entries, table), data)
