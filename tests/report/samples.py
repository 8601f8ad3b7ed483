"""The sites that the tests of the report try."""

import os
import random
import shutil
import tempfile

from ramyearly import operations, report, sites, tables
from ramyearly.errors import SiteError
from ramyearly.parameters import UNALTERED, Parameters
from ramyearly.refusals import Refused

ROOT = os.path.dirname(os.path.dirname(os.path.dirname(os.path.abspath(__file__))))
EXAMPLES = os.path.join(ROOT, "examples")

LEVELS = [(300, 140), (350, 150), (400, 160), (450, 170), (500, 180)]
# Pairs of neighbours, and two levels that are never used.
CLOSE_LEVELS = [(100, 10), (101, 11), (102, 12), (103, 13), (900, 20), (901, 60), (999, 80), (1000, 90)]
IDLE_LEVELS = [(0, 2000), *LEVELS]
OVERFULL = [(0, 40, 9000), (80, 200, 21000), (100, 120, 8500), (105, 118, 4000), (150, 170, 7500)]


def many_jobs():
    """Sixty-four jobs whose bounds are all different, which makes the most intervals that there can be."""
    chance = random.Random(4)
    times = sorted(chance.sample(range(3600), 128))
    jobs = []
    while times:
        release = times.pop(0)
        deadline = times.pop(chance.randrange(min(8, len(times))))
        jobs.append((release, deadline, (deadline - release) * chance.randint(20, 120)))
    chance.shuffle(jobs)
    return jobs


def crowded_jobs():
    """Sixty-four jobs that share most of their intervals, some at the largest times."""
    return [(3 * job, 1_000_000 - 5 * job, 7_000_000 - job) for job in range(64)]


MADE = {
    "overfull round": (LEVELS, OVERFULL),
    "overfull and large": (LEVELS, [(release, deadline, 9 * cycles) for release, deadline, cycles in many_jobs()]),
    "refused level": ([(300, 140), (350, 150), (340, 160), (450, 170)], OVERFULL),
    "refused job": (LEVELS, [(10 * job, 10 * job + 20 * (job != 12), 100) for job in range(40)]),
    "large": (LEVELS, many_jobs()),
    "crowded": (LEVELS, crowded_jobs()),
    "short beside long": (
        LEVELS,
        [(0, 1, 300), (1, 2, 20), (2, 1_000_000, 400_000), (500_000, 500_001, 500), (0, 1_000_000, 100_000_000)],
    ),
    "close levels": (CLOSE_LEVELS, [(0, 10, 900), (3, 7, 200)]),
    "largest cycles": ([(1000, 500)], [(0, 1_000_000, 1_000_000_000), (999_998, 999_999, 1)]),
    "no jobs": (LEVELS, []),
    "idle draw": (IDLE_LEVELS, [(0, 40, 9000), (60, 200, 21000), (100, 120, 8501)]),
    "idle draw, large": (IDLE_LEVELS, many_jobs()),
    "idle draw, largest": ([(0, 65535), (1000, 500)], [(0, 1_000_000, 1_000_000), (999_998, 999_999, 1)]),
    "idle draw, overfull": (IDLE_LEVELS, OVERFULL),
    "idle draw, no jobs": (IDLE_LEVELS, []),
    "no idle draw": ([(0, 0), (100, 10), (200, 10)], [(0, 10, 600), (30, 40, 700)]),
    "idle entry alone": ([(0, 2000)], OVERFULL),
    "two idle entries": ([(0, 2000), *IDLE_LEVELS], OVERFULL),
    "too much idle draw": ([(0, 5880), *LEVELS], OVERFULL),
}
# Tasks in place of jobs.
TASKS = {
    "three tasks": [(5, 20, 8, 3200), (10, 30, 15, 2000), (0, 60, 58, 6000)],
    "64 jobs of 16 tasks": [
        *((3 * task, 60, 20, 300 + task) for task in range(12)),
        *((0, 2, 1, 50), (1, 6, 3, 200), (3, 6, 2, 150), (10, 30, 15, 900)),
    ],
    "overfull rounds": [(0, 40, 40, 9000), (0, 20, 10, 4000), (4, 20, 5, 1500)],
    "refused task": [(0, 20, 8, 3200), (3, 7, 5, 1), (0, 60, 60, 5300)],
    "too long a round": [(0, 1000, 1, 1), (0, 500, 1, 1), (0, 1001, 1, 1)],
    "too many jobs in a round": [(0, 64, 1, 1), (0, 1, 1, 1)],
    "too many tasks": [(0, 1, 1, 1)] * 17,
    "no tasks": [],
}
# Marks beside jobs.
MARKED = {
    "handovers": (OVERFULL[:3], [20, 60, 110]),
    "handovers, overfull": (OVERFULL, [60, 110, 160]),
    "handovers, large": (many_jobs(), [450 * mark + 230 for mark in range(8)]),
    "handovers, crowded": (crowded_jobs(), [500_000 + mark for mark in range(8)]),
    "handovers, overfull and large": (
        [(release, deadline, 9 * cycles) for release, deadline, cycles in many_jobs()],
        [450 * mark + 230 for mark in range(8)],
    ),
    "handovers at both ends": ([(0, 1_000_000, 1_000_000)], [1, 2, 999_998, 999_999]),
    "handovers on bounds": ([(0, 40, 9000), (40, 200, 21000), (100, 120, 8500)], [40, 100, 120]),
    "marks outside": (OVERFULL[:3], [0, 200, 10**6, 2**32 - 1]),
    "marks of all kinds": ([(10, 40, 9000), (40, 200, 21000)], [5, 10, 40, 60, 200, 201]),
    "marks, no jobs": ([], [480, 960]),
    "marks that fall": (OVERFULL, [10, 50, 40, 60]),
    "too many marks": (OVERFULL, [*range(9)]),
}
ROUND = [(0, 120, 30_000), (70, 200, 30_000), (240, 300, 12_000)]
# Jobs or tasks with parameters, which come with a folder and stand in no file of it. All have a mark at 190. Two without
# parameters are to have the plans of others.
WITH_PARAMETERS = {
    "parameters": (LEVELS, "jobs", ROUND, Parameters(3, 20, 20)),
    "altered by hand": (LEVELS[:3], "jobs", [(r, d - 20, c * 6 // 5) for r, d, c in ROUND], UNALTERED),
    "parameters that just alter": (LEVELS, "jobs", ROUND, Parameters(4, 1, 1)),
    "highest level alone": (LEVELS, "jobs", ROUND, Parameters(highest=2)),
    "free ticks alone": (LEVELS, "jobs", ROUND, Parameters(free=20)),
    "margin alone": (LEVELS, "jobs", ROUND, Parameters(margin=7)),
    "no parameters": (LEVELS, "jobs", ROUND, UNALTERED),
    "parameters that alter nothing": (LEVELS, "jobs", ROUND, Parameters(5, 0, 0)),
    "parameters, idle draw": (IDLE_LEVELS, "jobs", ROUND, Parameters(3, 20, 20)),
    "parameters, overfull": (LEVELS, "jobs", ROUND, Parameters(3, 20, 21)),
    "parameters, tasks": (LEVELS, "tasks", TASKS["three tasks"], Parameters(4, 3, 10)),
    "parameters, large": (LEVELS, "jobs", crowded_jobs(), Parameters(4, 700_000, 20)),
    "parameters, no jobs": (LEVELS, "jobs", [], Parameters(3, 20, 20)),
    "parameters, emptied window": (LEVELS, "jobs", ROUND, Parameters(3, 60, 0)),
    "parameters, too many cycles": (LEVELS, "jobs", [(0, 9, 10**9)], Parameters(margin=1)),
    "highest level out of range": (LEVELS, "jobs", ROUND, Parameters(highest=6)),
    "margin out of range": (LEVELS, "jobs", ROUND, Parameters(margin=101)),
}
HOSTILE = b'<b>&"x\' \xff\x1b<i>'


def write(path, content):
    with open(path, "wb") as file:
        file.write(content if isinstance(content, bytes) else content.encode())


def lines(entries):
    return "".join(" ".join(map(str, entry)) + "\n" for entry in entries)


class Samples:
    """Folders with sites. They are made when this is, and removed by clean_up."""

    def __init__(self):
        self.room = tempfile.mkdtemp()
        for name, (levels, jobs) in MADE.items():
            self.make(name, **{"levels.txt": lines(levels), "jobs.txt": "# a line before the first\n" + lines(jobs)})
        for name, tasks in TASKS.items():
            self.make(name, **{"levels.txt": lines(LEVELS), "tasks.txt": lines(tasks)})
        for name, (jobs, marks) in MARKED.items():
            files = {"levels.txt": lines(LEVELS), "jobs.txt": lines(jobs)}
            self.make(name, **files, **{"marks.txt": "# a line before the first\n" + lines((mark,) for mark in marks)})
        for name, (levels, work, entries, _) in WITH_PARAMETERS.items():
            self.make(name, **{"levels.txt": lines(levels), f"{work}.txt": lines(entries), "marks.txt": "190\n"})
        self.make(os.fsdecode(HOSTILE), **{"levels.txt": lines(LEVELS), "jobs.txt": lines(OVERFULL[:2])})
        self.make("no level list", **{"jobs.txt": lines(OVERFULL)})
        self.make("no job list", **{"levels.txt": lines(LEVELS)})
        self.make("no text", **{"levels.txt": lines(LEVELS), "jobs.txt": "0 4 <script>\n"})
        self.make("short bytes", **{"levels.tbl": b"\x02\x00\x05", "jobs.tbl": tables.to_bytes(OVERFULL, tables.JOBS)})
        self.make("refused in bytes", **{"levels.txt": lines(LEVELS), "jobs.tbl": tables.to_bytes([(5, 5, 1)], tables.JOBS)})
        three = TASKS["three tasks"]
        self.make("tasks in bytes", **{"levels.txt": lines(LEVELS), "tasks.tbl": tables.to_bytes(three, tables.TASKS)})
        for name, tasks in (("idle draw, tasks", three[:2]), ("idle draw, no tasks", [])):
            self.make(name, **{"levels.txt": lines(IDLE_LEVELS), "tasks.txt": lines(tasks)})
        idle = tables.to_bytes(IDLE_LEVELS, tables.LEVELS)
        self.make("idle draw in bytes", **{"levels.tbl": idle, "jobs.txt": lines(OVERFULL[:2])})
        self.make("handovers, tasks", **{"levels.txt": lines(LEVELS), "tasks.txt": lines(three), "marks.txt": "30\n60\n"})
        for name, marks in (("marks in bytes", [20, 60]), ("no marks in bytes", []), ("marks that fall, in bytes", [20, 20])):
            data = tables.to_bytes([(mark,) for mark in marks], tables.MARKS)
            self.make(name, **{"levels.txt": lines(LEVELS), "jobs.txt": lines(OVERFULL[:3]), "marks.tbl": data})
        for name, data in (("empty marks", b""), ("short marks", b"\x02\x00\x05")):
            self.make(name, **{"levels.txt": lines(LEVELS), "jobs.txt": lines([]), "marks.tbl": data})
        self.make("marks that can't be read", **{"levels.txt": lines(LEVELS), "jobs.txt": lines([])})
        os.mkdir(os.path.join(self.room, "marks that can't be read", "marks.tbl"))
        self.make("two lists", **{"levels.txt": lines(LEVELS), "jobs.txt": lines(OVERFULL), "tasks.txt": lines(three)})
        self.make("nothing")
        examples = [os.path.join(EXAMPLES, name) for name in sorted(os.listdir(EXAMPLES))]
        self.folders = [os.path.join(self.room, name) for name in sorted(os.listdir(self.room))] + examples

    def make(self, name, **files):
        os.mkdir(os.path.join(self.room, name))
        for file, content in files.items():
            write(os.path.join(self.room, name, file), content)

    def folder(self, name):
        """The folder of a sample, or of an example."""
        return next(folder for folder in self.folders if os.path.basename(folder) == name)

    def clean_up(self):
        shutil.rmtree(self.room)


def outcome_of(folder):
    """The site in a folder and what planning it gives, as the command has them."""
    site = None
    try:
        *_, parameters = WITH_PARAMETERS.get(os.path.basename(folder), [UNALTERED])
        site = sites.read_site(folder, parameters)
        site = sites.lay_out(site)
        return site, operations.plan_tables(*site.arguments(tables.LENT_TO_PLAN))
    except (Refused, SiteError) as error:
        return site, error


def page_of(folder):
    return report.page(os.path.basename(folder), *outcome_of(folder))
