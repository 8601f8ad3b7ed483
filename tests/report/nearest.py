"""Tests of what the pages say of the jobs nearest to trouble, and of the room of each job."""

from ramyearly import operations, tables

from pages import HTML, WithSamples, rows_of, terms_of, text_of
from parameters import heads_of

ROOM = (
    "The room of a job is the most cycles that can be added to it alone with all deadlines still met; one more is too many. "
    "Cycles added to one job may take the room of others."
)
WITH_MARGIN = "Added cycles come on top of those with the margin, and get no margin themselves."
OF_TASKS = "A longer task has more cycles in each of its jobs"


def words_of(page):
    """The paragraphs of the section."""
    section = next(section for section in page.iter(f"{HTML}section") if section.get("id") == "nearest")
    return [text_of(part) for part in section.findall(f"{HTML}p")]


class Nearest(WithSamples):
    def test_the_example(self):
        page = self.parsed("longer-upload")
        self.assertEqual(words_of(page), ["The jobs nearest to trouble are jobs 2 and 3: no cycle can be added to any of them.", ROOM])
        self.assertEqual(heads_of(page, "room-table"), ["Job", "Line", "Release", "Deadline", "Cycles", "Room"])
        rows = [(row[0], row[1], row[-1]) for row in rows_of(page, "room-table")]
        near = [("2", "7", "0"), ("3", "8", "0"), ("0", "5", "1,000")]
        self.assertEqual(rows, [*near, ("4", "9", "7,000"), ("5", "10", "7,000"), ("1", "6", "28,000")])

    def test_every_plan(self):
        """In the order of the archive, with its numbers, and a link leads there. The least room is the least spare of any window."""
        pages = 0
        for page, site, planned in self.planned():
            if planned.spans:
                levels, jobs, _, parameters = site.arguments(tables.LENT_TO_PLAN)
                rows = [(int(row[0]), int(row[-1].replace(",", ""))) for row in rows_of(page, "room-table")]
                self.assertEqual(rows, operations.nearest_of(levels, jobs, parameters))
                self.assertEqual(rows_of(page, "room-table")[0][-1], rows_of(page, "window-table")[0][5])
                self.assertIn("#nearest", [link.get("href") for link in page.iter(f"{HTML}a")])
                self.assertTrue(words_of(page)[0].startswith("The job"))
                self.assertIn("the least spare of all windows that it lies inside", terms_of(page)["Room"])
                pages += 1
        self.assertGreater(pages, 30)

    def test_one_job(self):
        page = self.parsed("handovers at both ends")
        self.assertEqual(words_of(page)[0], "The job nearest to trouble is job 0: at most 499,000,000 cycles can be added to it.")

    def test_tasks(self):
        page = self.parsed("three tasks")
        self.assertEqual(heads_of(page, "room-table"), ["Job", "Task", "Release", "Deadline", "Cycles", "Room"])
        self.assertEqual([row[0] for row in rows_of(page, "room-table")][:3], ["1", "3", "5"])
        self.assertTrue(words_of(page)[1].startswith(f"{ROOM} {OF_TASKS}"))

    def test_parameters(self):
        """The room is that of the altered tables, and what was given stands beside them."""
        page = self.parsed("parameters")
        names = ["Job", "Line", "Release", "Deadline", "Cycles", "Given deadline", "Given cycles", "Room"]
        self.assertEqual(heads_of(page, "room-table"), names)
        rows = [["0", "1", "0", "100", "36,000", "120", "30,000", "0"], ["1", "2", "70", "180", "36,000", "200", "30,000", "0"]]
        self.assertEqual(rows_of(page, "room-table")[:2], rows)
        self.assertEqual(words_of(page)[1], f"{ROOM} {WITH_MARGIN}")
        by_hand = self.parsed("altered by hand")
        self.assertEqual(words_of(by_hand), [words_of(page)[0], ROOM])
        rooms = [[(row[0], row[-1]) for row in rows_of(found, "room-table")] for found in (page, by_hand)]
        self.assertEqual(rooms[0], rooms[1])
        self.assertEqual(words_of(self.parsed("free ticks alone"))[1], ROOM)

    def test_no_plan(self):
        """An overfull, refused or empty site has no such list, and nothing is said of room."""
        for name in ("overfull round", "parameters, overfull", "overfull rounds", "refused job", "no jobs", "no text"):
            page = self.parsed(name)
            self.assertIsNone(rows_of(page, "room-table"))
            for word in ("nearest to trouble", "Nearest to trouble", "Room", "room of"):
                self.assertNotIn(word, text_of(page.find(f".//{HTML}main")))
