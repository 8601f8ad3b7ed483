"""Tables of the benchmark, from the files of a results folder, and the goals, met or missed. Of several folders, each with the
results of a run, the figures of the goals side by side."""
import csv
import math
import os
import statistics
import sys

WHOLE = " whole"  # a peer's time with building its model
BEFORE = " before"  # the same function of an earlier commit
NAMES = {"plan": "planning", "check": "checking"}  # what may be measured before and now
TAIL = 8  # growth is fitted from this many jobs on: below it the fixed costs of a call are most of the time
PEER = "LEMON"  # the solver that the goals name, the fastest of them
EASY = ("small", "chains")  # where the flow is easy, so that other work shows in the growth


def read(folder, name):
    path = os.path.join(folder, name)
    if not os.path.exists(path):
        return []
    with open(path) as file:
        return list(csv.DictReader(file))


def table(title, head, rows):
    print(f"\n{title}\n")
    cells = [head] + [[str(c) for c in row] for row in rows]
    widths = [max(len(row[i]) for row in cells) for i in range(len(head))]
    for number, row in enumerate(cells):
        print("| " + " | ".join(c.ljust(w) if i == 0 else c.rjust(w) for i, (c, w) in enumerate(zip(row, widths))) + " |")
        if number == 0:
            print("|" + "|".join("-" * (w + 1) + ("-" if i == 0 else ":") for i, w in enumerate(widths)) + "|")


def short(x):
    return f"{x:.0f}" if x >= 100 else f"{x:.1f}" if x >= 10 else f"{x:.2f}"


class Times:
    def __init__(self, rows):
        self.rows = rows
        self.families = list(dict.fromkeys(r["family"] for r in rows))
        self.sizes = sorted({int(r["jobs"]) for r in rows})
        self.cells = [(f, n) for f in self.families for n in self.sizes]
        self.peers = [c[: -len(WHOLE)] for c in rows[0] if c.endswith(WHOLE)]
        self.before = [c for c in NAMES if c + BEFORE in rows[0]]

    def with_before(self, column):
        return [column] + [column + BEFORE] * (column in self.before)

    def sites(self, family, jobs):
        return [r for r in self.rows if r["family"] == family and int(r["jobs"]) == jobs]

    def median(self, family, jobs, column):
        return statistics.median(float(r[column]) for r in self.sites(family, jobs))

    def ratio(self, family, jobs, above, below):
        return statistics.median(float(r[above]) / float(r[below]) for r in self.sites(family, jobs))

    def faster(self, family, jobs, column):
        """How often the time of now goes into that of before."""
        return self.ratio(family, jobs, column + BEFORE, column)

    def fastest(self, family, jobs, whole):
        """How often planning goes into the time of the fastest general solver."""
        return statistics.median(min(float(r[p + whole]) for p in self.peers) / float(r["plan"]) for r in self.sites(family, jobs))

    def grid(self, title, value):
        table(title, ["family"] + [f"{n} jobs" if n > 1 else "1 job" for n in self.sizes],
              [[f] + [short(value(f, n)) for n in self.sizes] for f in self.families])

    def exponent(self, family, column, over):
        """The slope of the least-squares line through the logarithms of the medians."""
        points = [(math.log(self.median(family, n, over)), math.log(self.median(family, n, column)))
                  for n in self.sizes if n >= TAIL]
        mx = statistics.mean(x for x, _ in points)
        my = statistics.mean(y for _, y in points)
        return sum((x - mx) * (y - my) for x, y in points) / sum((x - mx) ** 2 for x, _ in points)

    def last_step(self, family, column, over):
        """The slope between the two largest sizes alone."""
        m, n = self.sizes[-2:]
        return (math.log(self.median(family, n, column) / self.median(family, m, column))
                / math.log(self.median(family, n, over) / self.median(family, m, over)))


def now_and_before(t, column):
    name = NAMES[column]
    t.grid(f"{name.capitalize()}, microseconds", lambda f, n: t.median(f, n, column) / 1000)
    if column in t.before:
        t.grid(f"{name.capitalize()} before, microseconds", lambda f, n: t.median(f, n, column + BEFORE) / 1000)
        t.grid(f"Time of {name} before / time of {name} (above 1: {name} is faster now)", lambda f, n: t.faster(f, n, column))


def grids(t):
    now_and_before(t, "plan")
    for peer in t.peers:
        t.grid(f"Time of {peer}, building and solving / time of planning (above 1: planning is faster)",
               lambda f, n: t.ratio(f, n, peer + WHOLE, "plan"))
        t.grid(f"Time of {peer}, solving alone / time of planning", lambda f, n: t.ratio(f, n, peer, "plan"))
    t.grid("Time of planning / time of the plain C planner (below 1: planning is faster)", lambda f, n: t.ratio(f, n, "plan", "plain"))
    now_and_before(t, "check")
    t.grid("Time of planning / time of checking", lambda f, n: t.ratio(f, n, "plan", "check"))
    t.grid("Fitting, the first half of the check, microseconds", lambda f, n: t.median(f, n, "fits") / 1000)
    t.grid("Time of fitting / time of checking", lambda f, n: t.ratio(f, n, "fits", "check"))
    t.grid("Ordering a plan whose steps are mixed, microseconds", lambda f, n: t.median(f, n, "order") / 1000)
    t.grid("Time of ordering / time of checking the same plan", lambda f, n: t.ratio(f, n, "order", "check mixed"))
    t.grid("Listing what touches all ticks, by the same plan, microseconds", lambda f, n: t.median(f, n, "touching") / 1000)
    t.grid("Time of listing / time of checking the same plan", lambda f, n: t.ratio(f, n, "touching", "check mixed"))
    t.grid("Listing the job nearest to trouble, microseconds", lambda f, n: t.median(f, n, "nearest") / 1000)
    t.grid("Time of listing the job nearest to trouble / time of the window test", lambda f, n: t.ratio(f, n, "nearest", "windows"))
    last = t.sizes[-1]
    table(f"Sites of {last} jobs: sizes, and one call of setting and of spare, nanoseconds",
          ["family", "intervals", "pairs K", "bands", "steps", "setting", "spare"],
          [[f] + [f"{t.median(f, last, c):.0f}" for c in ("intervals", "pairs", "bands", "steps", "setting", "spare")] for f in t.families])
    plans = t.with_before("plan")
    columns = plans + t.with_before("check") + ["fits", "plain"] + t.peers
    for over, name in (("jobs", "the number of jobs"), ("pairs", "the number of pairs K")):
        table(f"Growth: exponent of {name}, fitted from {TAIL} to {last} jobs, and planning's from {t.sizes[-2]} to {last} alone",
              ["family"] + columns + [f"{p}, last" for p in plans],
              [[f] + [f"{t.exponent(f, c, over):.2f}" for c in columns] + [f"{t.last_step(f, p, over):.2f}" for p in plans]
               for f in t.families])


def marked_sites(t, folder):
    """The largest sites with 8 handover marks: how much longer each call takes than without them, and the times before / now."""
    rows = read(folder, "marked.csv")
    if not rows:
        return
    marked, last = Times(rows), t.sizes[-1]
    columns = ("plan", "plain", "check", "fits", "order", "touching")

    def longer(family, column):
        sites = zip(marked.sites(family, last), t.sites(family, last))
        return short(statistics.median(float(with_marks[column]) / float(without[column]) for with_marks, without in sites))

    table(f"Sites of {last} jobs with 8 marks: sizes, planning in microseconds, and times / times without marks",
          ["family", "intervals", "pairs K", "steps", "planning"] + [f"{c}, ratio" for c in columns]
          + [f"{c}{BEFORE} / {c}" for c in marked.before],
          [[f] + [f"{marked.median(f, last, c):.0f}" for c in ("intervals", "pairs", "steps")]
           + [short(marked.median(f, last, "plan") / 1000)] + [longer(f, c) for c in columns]
           + [short(marked.faster(f, last, c)) for c in marked.before] for f in marked.families])


def longest_plans(folder):
    """The longest plan of the sites, and the one with the most steps that there can be."""
    site = max(read(folder, "times.csv"), key=lambda r: int(r["steps"]))
    return [(f"{site['family']}, {site['jobs']} jobs, seed {site['seed']}", site),
            ("the most steps that there can be", read(folder, "longest.csv")[0])]


def share_of_check(r, column):
    return float(r[column]) / float(r["check mixed"])


def instructions(folder):
    names = {"ramyearly_plan": "plan", "before_plan": "plan" + BEFORE, "plain_plan": "plain", "ramyearly_check": "check",
             "before_check": "check" + BEFORE, "ramyearly_fits": "fits", "ramyearly_order": "order", "ramyearly_touching": "touching",
             "ramyearly_nearest": "nearest", "windows": "windows"}
    ratios = ([(c + BEFORE, c) for c in NAMES] + [("plan", "plain")] + [(c, "check") for c in ("plan", "fits", "order", "touching")]
              + [("nearest", "windows")])
    counts = {}
    for r in read(folder, "instructions.csv"):
        counts.setdefault((r["family"], r["jobs"]), {})[names[r["function"]]] = int(r["instructions"])
    if counts:
        columns = [n for n in names.values() if n in next(iter(counts.values()))]
        ratios = [(a, b) for a, b in ratios if a in columns]
        table("Instructions of one call (callgrind), seed 1", ["family", "jobs"] + columns + [f"{a} / {b}" for a, b in ratios],
              [[f, n] + [c[name] for name in columns] + [short(c[a] / c[b]) for a, b in ratios] for (f, n), c in counts.items()])


def others(folder):
    beside = {"fits mixed": "fitting", "order": "ordering", "touching": "listing"}
    table("The longest plans, their steps mixed: checking, fitting, ordering and listing what touches all ticks, microseconds",
          ["plan", "steps", "checking", *beside.values()] + [f"{name} / checking" for name in beside.values()],
          [[name, r["steps"]] + [short(float(r[c]) / 1000) for c in ("check mixed", *beside)]
           + [short(share_of_check(r, c)) for c in beside] for name, r in longest_plans(folder)])
    stack = read(folder, "stack.csv")
    table("Deepest stack over all sites, bytes", [r["function"] for r in stack], [[r["bytes"] for r in stack]])
    size = read(folder, "size.csv")
    table("The archive, its machine code and the plain planner's, bytes", [r["what"] for r in size], [[r["bytes"] for r in size]])
    instructions(folder)


def goal(name, met, found):
    print(f"{'met   ' if met else 'MISSED'} {name}: {found}")


def extreme(choose, cells, ratio):
    """The smallest or largest ratio, with its cell."""
    cell = choose(cells, key=ratio)
    return f"{short(ratio(cell))} ({cell[0]}, {cell[1]})"


def span(cells, ratio):
    return f"from {extreme(min, cells, ratio)} to {extreme(max, cells, ratio)} times"


def count(cells, holds):
    return f"{sum(holds(c) for c in cells)} of {len(cells)} cells"


def goals(t):
    """Those of the planner's speed, and of the job nearest to trouble."""
    if PEER in t.peers:
        alone = lambda c: t.ratio(*c, PEER, "plan")
        whole = lambda c: t.ratio(*c, PEER + WHOLE, "plan")
        goal(f"planning faster than {PEER}, solving alone, in all cells", all(alone(c) > 1 for c in t.cells),
             f"{span(t.cells, alone)}; faster in {count(t.cells, lambda c: alone(c) > 1)}")
        goal(f"planning at least 3 times faster than {PEER}, building and solving, in all cells", all(whole(c) >= 3 for c in t.cells),
             f"{span(t.cells, whole)}; 3 or more in {count(t.cells, lambda c: whole(c) >= 3)}")
    else:
        print(f"not measured: planning against {PEER}")
    plain = lambda c: t.ratio(*c, "plan", "plain")
    more = [c for c in t.cells if c[1] > 2]
    goal("planning within 1.5 times of the plain C planner in all cells", all(plain(c) <= 1.5 for c in t.cells),
         f"at most {extreme(max, t.cells, plain)}, and {extreme(max, more, plain)} with more than two jobs; "
         f"within it in {count(t.cells, lambda c: plain(c) <= 1.5)}")
    # the fit hides a steep end, so the last step counts as well
    slopes = {f: (t.exponent(f, "plan", "jobs"), t.last_step(f, "plan", "jobs")) for f in t.families if f in EASY}
    goal(f"planning grows at most quadratically in the number of jobs on {' and '.join(slopes)}", all(max(s) <= 2 for s in slopes.values()),
         "exponents (fit, last step) " + ", ".join(f"{f} {fit:.2f} and {last:.2f}" for f, (fit, last) in slopes.items()))
    last = t.sizes[-1]
    largest = [(f, last) for f in t.families]
    windows = lambda c: t.ratio(*c, "nearest", "windows")
    goal(f"listing the job nearest to trouble at most twice the time of the window test at {last} jobs, in every family",
         all(windows(c) <= 2 for c in largest), span(largest, windows))
    for column in t.before:
        faster = lambda c: t.faster(*c, column)
        print(f"{NAMES[column]} before / {NAMES[column]}: {span(t.cells, faster)}; faster now in {count(t.cells, lambda c: faster(c) > 1)}")


def earlier_goals(t, folder):
    """Those of earlier changes."""
    last = t.sizes[-1]
    for whole, work in (("", "solving alone"), (WHOLE, "building and solving")) if t.peers else ():
        ratio = lambda c: t.fastest(*c, whole)
        goal(f"planning at least 10 times faster than the fastest general solver, {work}", all(ratio(c) >= 10 for c in t.cells),
             f"{span(t.cells, ratio)}; 10 or more in {count(t.cells, lambda c: ratio(c) >= 10)}")
    largest = [(f, last) for f in t.families]
    ratio = lambda c: t.ratio(*c, "plan", "check")
    goal(f"checking at least 10 times faster than planning at {last} jobs", all(ratio(c) >= 10 for c in largest),
         span(largest, ratio))
    share, steps = max((share_of_check(r, "order"), r["steps"]) for name, r in longest_plans(folder))
    goal("ordering at most twice the time of checking, on the longest plans", share <= 2, f"at most {short(share)} ({steps} steps)")
    steep = lambda f: max(t.exponent(f, "plan", "pairs"), t.last_step(f, "plan", "pairs"))
    found = [f"{f} {t.exponent(f, 'plan', 'pairs'):.2f} and {t.last_step(f, 'plan', 'pairs'):.2f}" for f in t.families if steep(f) > 2]
    worst = max(t.families, key=steep)
    goal("planning grows no worse than quadratically in K", not found,
         f"above 2 (fit, last step): {', '.join(found)}" if found else f"largest exponent {steep(worst):.2f} ({worst})")


def run_of(folder):
    return (read(folder, "run.csv") or [{"date": "no date", "machine": "", "compilers": ""}])[0]


def figures(folder):
    """For each goal the ratio of the cell that is farthest from it, with the cell."""
    t = Times(read(folder, "times.csv"))
    found = {"run": run_of(folder)["date"]}
    if PEER in t.peers:
        found[f"{PEER} alone, smallest"] = extreme(min, t.cells, lambda c: t.ratio(*c, PEER, "plan"))
        found[f"{PEER} whole, smallest"] = extreme(min, t.cells, lambda c: t.ratio(*c, PEER + WHOLE, "plan"))
    found["plain, largest"] = extreme(max, t.cells, lambda c: t.ratio(*c, "plan", "plain"))
    for f in EASY:
        found[f"growth of {f}"] = f"{t.exponent(f, 'plan', 'jobs'):.2f} and {t.last_step(f, 'plan', 'jobs'):.2f}"
    if "nearest" in t.rows[0]:
        found[f"nearest / window test at {t.sizes[-1]} jobs, largest"] = extreme(
            max, [(f, t.sizes[-1]) for f in t.families], lambda c: t.ratio(*c, "nearest", "windows"))
    for column in t.before:
        found[f"{NAMES[column]} before / now, smallest"] = extreme(min, t.cells, lambda c: t.faster(*c, column))
    return found


def all_tables(folder):
    run = run_of(folder)
    print(f"measured: {run['date']}\nmachine: {run['machine']}\ncompilers: {run['compilers']}")
    times = Times(read(folder, "times.csv"))
    print(f"{len(times.rows)} sites; the plain planner writes the same bytes as ours"
          + (", planning before has the same loads, figure and prices" if "plan" in times.before else "")
          + (", checking before accepts our plans" if "check" in times.before else "")
          + (f", and {', '.join(times.peers)} find the same exact energy" if times.peers else ""))
    grids(times)
    marked_sites(times, folder)
    others(folder)
    print("\nGoals")
    goals(times)
    print("\nGoals of earlier changes")
    earlier_goals(times, folder)


def main():
    folders = sys.argv[1:]
    if len(folders) == 1:
        all_tables(folders[0])
        return
    rows = [figures(f) for f in folders]
    head = list(dict.fromkeys(c for row in rows for c in row))
    table("The goals in each run", head, [[row.get(c, "") for c in head] for row in rows])


main()
