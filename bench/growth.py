"""A picture of growth: time over K for the family with the most pairs, both axes logarithmic."""
import csv
import math
import statistics
import sys

FAMILY = "worst"
WIDTH, HEIGHT, LEFT, RIGHT, TOP, BOTTOM = 760, 460, 70, 150, 44, 52
NAMES = {"plan": "planning", "plan before": "planning before", "check": "checking", "check before": "checking before", "fits": "fitting",
         "plain": "plain C planner"}
COLOURS = {"plan": "#b3261e", "plan before": "#e08a84", "check": "#1f6f43", "check before": "#8fb8a1", "fits": "#00838f",
           "plain": "#8a5a00", "LEMON": "#1b4f9c", "GLPK": "#6b6b6b", "CLP": "#7a3e9d"}


def label(nanoseconds):
    for unit, size in (("s", 1e9), ("ms", 1e6), ("µs", 1e3)):
        if nanoseconds >= size:
            return f"{nanoseconds / size:g} {unit}"
    return f"{nanoseconds:g} ns"


def series(rows):
    columns = [c for c in rows[0] if c in COLOURS]
    sizes = sorted({int(r["jobs"]) for r in rows})
    found = {c: [] for c in columns}
    for n in sizes:
        sites = [r for r in rows if int(r["jobs"]) == n]
        pairs = statistics.median(int(r["pairs"]) for r in sites)
        for c in columns:
            found[c].append((pairs, statistics.median(float(r[c]) for r in sites)))
    return found


def spread(labels, least):
    """Moves labels apart that would overlap."""
    labels = sorted(labels)
    for i in range(1, len(labels)):
        if labels[i][0] - labels[i - 1][0] < least:
            labels[i] = (labels[i - 1][0] + least,) + labels[i][1:]
    return labels


def main():
    with open(sys.argv[1]) as file:
        lines = series([r for r in csv.DictReader(file) if r["family"] == FAMILY])
    points = [p for line in lines.values() for p in line]
    x0, x1 = 0, math.log10(max(x for x, _ in points))
    y0 = math.floor(math.log10(min(y for _, y in points)))
    y1 = math.ceil(math.log10(max(y for _, y in points)))
    across = lambda x: LEFT + (math.log10(x) - x0) / (x1 - x0) * (WIDTH - LEFT - RIGHT)
    up = lambda y: HEIGHT - BOTTOM - (math.log10(y) - y0) / (y1 - y0) * (HEIGHT - TOP - BOTTOM)
    out = [f'<svg xmlns="http://www.w3.org/2000/svg" viewBox="0 0 {WIDTH} {HEIGHT}" font-family="sans-serif" font-size="13">',
           f'<rect width="{WIDTH}" height="{HEIGHT}" fill="#ffffff"/>',
           f'<text x="{LEFT}" y="22" font-size="15" fill="#222222">Time of one call over K, family {FAMILY} (K = jobs × jobs)</text>']
    for e in range(y0, y1 + 1):
        y = up(10 ** e)
        out.append(f'<line x1="{LEFT}" y1="{y:.1f}" x2="{WIDTH - RIGHT}" y2="{y:.1f}" stroke="#e6e6e6"/>')
        out.append(f'<text x="{LEFT - 8}" y="{y + 4:.1f}" text-anchor="end" fill="#555555">{label(10 ** e)}</text>')
    for x, _ in next(iter(lines.values())):
        out.append(f'<text x="{across(x):.1f}" y="{HEIGHT - BOTTOM + 20}" text-anchor="middle" fill="#555555">{x:g}</text>')
    out.append(f'<text x="{(LEFT + WIDTH - RIGHT) / 2}" y="{HEIGHT - 10}" text-anchor="middle" fill="#555555">K, pairs of a job and an interval in which it is open</text>')
    ends = []
    for name, line in lines.items():
        path = " ".join(f"{across(x):.1f},{up(y):.1f}" for x, y in line)
        out.append(f'<polyline points="{path}" fill="none" stroke="{COLOURS[name]}" stroke-width="{3 if name == "plan" else 2}"/>')
        ends.append((up(line[-1][1]), name))
    for y, name in spread(ends, 16):
        out.append(f'<text x="{WIDTH - RIGHT + 8}" y="{y + 4:.1f}" fill="{COLOURS[name]}">{NAMES.get(name, name)}</text>')
    out.append("</svg>")
    with open(sys.argv[2], "w") as file:
        file.write("\n".join(out) + "\n")


main()
