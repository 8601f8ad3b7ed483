"""Tests of the pages of sites that have tasks in place of jobs."""

from pages import HTML, WithSamples, rows_of, text_of, verdict_of


class Rounds(WithSamples):
    def test_the_tasks_and_the_round(self):
        page = self.parsed("three tasks")
        rows = [["0", "1", "5", "20", "8", "3,200", "1, 3 and 5"], ["1", "2", "10", "30", "15", "2,000", "2 and 4"]]
        self.assertEqual(rows_of(page, "task-table"), [*rows, ["2", "3", "0", "60", "58", "6,000", "0"]])
        sentence = "The round repeats every 60 ticks: the plan may be repeated any number of times, and stays a least one"
        self.assertIn(sentence, verdict_of(page))
        facts = [text_of(fact) for fact in page.iter(f"{HTML}dd")]
        for said in ("0 to 5858 ticks, repeats every 60", "6from 3 tasks"):
            self.assertIn(said, facts)
        self.assertIn("Round", [text_of(term) for term in page.iter(f"{HTML}dt")])
        jobs = [row[:5] for row in rows_of(page, "job-table")]
        self.assertEqual(jobs[:3], [["0", "2", "0", "58", "58"], ["1", "0", "5", "13", "8"], ["2", "1", "10", "25", "15"]])

    def test_bytes(self):
        page = self.parsed("tasks in bytes")
        self.assertEqual(rows_of(page, "task-table")[0], ["0", "5", "20", "8", "3,200", "1, 3 and 5"])

    def test_the_largest_round(self):
        page = self.parsed("64 jobs of 16 tasks")
        self.assertEqual((len(rows_of(page, "task-table")), len(rows_of(page, "job-table"))), (16, 64))

    def test_a_site_with_jobs_says_nothing_of_rounds(self):
        for name in ("guard-round", "overfull", "empty"):
            page = self.parsed(name)
            self.assertIsNone(rows_of(page, "task-table"))
            for word in ("repeat", "task", "Round"):
                self.assertNotIn(word, text_of(page.find(f".//{HTML}main")))

    def test_an_overfull_round(self):
        page = self.parsed("overfull rounds")
        self.assertIn("from 0 to 10 jobs 1 and 2 need 500 cycles more", verdict_of(page))
        self.assertEqual(rows_of(page, "own-job-table"), [["1", "1", "0", "10", "4,000"], ["2", "2", "4", "9", "1,500"]])
        self.assertIn("tasks.txt lines 2 and 3: overfull", text_of(page))

    def test_refusals(self):
        for name, words, row in (
            ("refused task", "tasks.txt line 2: phase 3 + deadline 5 is above the period 7 (refusal 28, entry 1)", "\u25b8 1"),
            ("too long a round", "tasks.txt line 3: the least common multiple of the periods 1000, 500 and 1001", "\u25b8 2"),
            ("too many jobs in a round", "tasks.txt line 2: with this task there are more than 64 jobs", "\u25b8 1"),
            ("too many tasks", "tasks.txt: 17 tasks, but a table has at most 16 (refusal 28)", None),
        ):
            page = self.parsed(name)
            self.assertIn(words, verdict_of(page))
            marked = [text_of(row[0]) for row in page.iter(f"{HTML}tr") if row.get("class") == "marked"]
            self.assertEqual(marked, [row] if row else [])
            self.assertEqual([row[0] for row in rows_of(page, "source-table")], ["Levels", "Tasks"])
        self.assertIn("tasks.txt: jobs.txt is there too", verdict_of(self.parsed("two lists")))

    def test_no_tasks(self):
        page = self.parsed("no tasks")
        self.assertIn("The task list is empty", verdict_of(page))
        self.assertEqual([row[0] for row in rows_of(page, "source-table")], ["Levels", "Tasks"])
