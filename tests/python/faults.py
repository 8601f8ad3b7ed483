"""Parts of a call, as what is replaced in a sound one, and those that are refused in level and job tables and in plans."""

from ramyearly import operations, tables
from support import PAIR, PLAN, TWO_JOBS


def levels_of(*entries):
    return {"levels": tables.to_bytes(entries, tables.LEVELS)}


def jobs_of(*entries):
    return {"jobs": tables.to_bytes(entries, tables.JOBS)}


def plan_of(*steps, intervals=3):
    return {"plan": operations.plan_table(intervals, steps)}


# For each refusal of a level or a job table what is replaced.
TABLE_FAULTS = {
    1: {"levels": b"\1"},
    2: {"levels": b"\0\0"},
    3: {"levels": PAIR + b"\0"},
    4: levels_of((300, 90), (300, 90)),
    5: levels_of((2, 10), (4, 9)),
    31: levels_of((0, 1)),
    32: levels_of((0, 1), (2, 10), (4, 20)),
    6: {"jobs": b""},
    7: jobs_of(*[(0, 1, 1)] * 65),
    8: {"jobs": TWO_JOBS[:-1]},
    9: jobs_of((0, 4, 6), (3, 3, 1)),
    10: jobs_of((0, 4, 6), (2, 3, 0)),
}

# The steps of the sound plan, and for each refusal of a plan that needs no prices what is replaced.
STEPS = [(0, 0, 4), (1, 1, 4), (2, 0, 2)]
PLAN_FAULTS = {
    15: {"plan": PLAN[:-1]},
    16: plan_of(*STEPS, intervals=4),
    17: plan_of(*STEPS, (0, 1, 4)),
    18: plan_of(*STEPS, (1, 0, 0)),
    19: plan_of(*STEPS[:2]),
    20: plan_of((1, 0, 1), (1, 1, 4), (0, 0, 5)),
}
