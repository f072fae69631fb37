#!/usr/bin/env python3
"""Turns the lines of `oracle bench` into the tables of README.md and the plot cost.svg: report.py FOLDER (see run.sh)."""
import collections
import pathlib
import sys

HERE = pathlib.Path(__file__).resolve().parent
CALLS = ["propose", "broadcast", "agreement", "share"]
GOALS = {(4, 3): 3.0, (7, 3): 2.5, (16, 15): 1 / 1.5}
WHATS = ["original", "engine", "range", "zeroing", "table", "first"]


class Call:
    """A line: where the call stands, and the quartiles of what was measured."""

    def __init__(self, line):
        x = line.rstrip("\n").split("\t")
        self.n, self.ahead, self.kind = int(x[2]), int(x[3]), x[7]
        self.reply, self.chain, self.records = int(x[8]), int(x[9]), int(x[10])
        times = [float(t) for t in x[11:]]
        self.times = {what: times[3 * i : 3 * i + 3] for i, what in enumerate(WHATS)}


def read(path):
    return [Call(line) for line in path.open()]


def accepted(calls):
    return [c for c in calls if c.kind in CALLS and c.reply == 0]


def mean(calls, what, quartile=1):
    return sum(c.times[what][quartile] for c in calls) / len(calls)


def spread(calls, what):
    return f"{mean(calls, what):.0f} ({mean(calls, what, 0):.0f} to {mean(calls, what, 2):.0f})"


def ratio(calls):
    return mean(calls, "original") / mean(calls, "engine")


def table(head, rows):
    lines = ["| " + " | ".join(head) + " |", "|---|" + "--:|" * (len(head) - 1)]
    return "\n".join(lines + ["| " + " | ".join(str(x) for x in row) + " |" for row in rows])


def said(goal):
    return f"{goal:g} times its speed" if goal >= 1 else f"at most {1 / goal:g} times its time"


def times_of(x):
    return f"{x:.2f} times its speed" if x >= 1 else f"{1 / x:.2f} times its time"


def goals(sized, lto):
    rows = []
    for size, goal in GOALS.items():
        calls = accepted(sized[size])
        met = "yes" if ratio(calls) >= goal else "no"
        rows.append([f"N {size[0]}, F {size[1]}", len(calls), spread(calls, "original"), spread(calls, "engine"),
                     times_of(ratio(calls)), said(goal), met, times_of(ratio(accepted(lto[size])))])
    head = ["", "calls", "original, ns", "engine, ns", "engine is at", "goal", "met", "beside the original with link-time optimisation"]
    return table(head, rows)


def kinds(sized):
    rows = []
    for size in GOALS:
        for kind in CALLS + ["skip", "queries"]:
            calls = [c for c in sized[size] if c.kind == kind and c.reply == 0]
            if calls:
                rows.append([f"N {size[0]}, F {size[1]}: {kind}", len(calls), spread(calls, "original"),
                             spread(calls, "engine"), f"{ratio(calls):.2f}"])
    return table(["", "calls", "original, ns", "engine, ns", "ratio"], rows)


def parts(sized):
    rows = []
    for size in GOALS:
        calls = accepted(sized[size])
        t = {what: mean(calls, what) for what in WHATS}
        row = [t["range"], t["zeroing"] - t["range"], t["table"] - t["zeroing"], t["first"] - t["table"], t["engine"] - t["first"]]
        rows.append([f"N {size[0]}, F {size[1]}"] + [f"{x:.0f}" for x in row] + [f"{t['engine']:.0f}"])
    head = ["ns", "range check", "zeroing", "table check", "first run", "second run, commit", "all"]
    return table(head, rows)


def sizes(sized):
    by_n, by_ahead = sorted({n for n, _ in sized}), sorted({f for _, f in sized})
    rows = []
    for n in by_n:
        row = [n]
        for ahead in by_ahead:
            calls = accepted(sized[n, ahead])
            row.append(f"{mean(calls, 'engine'):.0f}, {mean(calls, 'original'):.0f}, {ratio(calls):.2f}")
        rows.append(row)
    return table(["N"] + [f"F {f}" for f in by_ahead], rows)


def recorded(calls):
    rows = []
    for low, high in [(1, 3), (4, 6), (7, 9), (10, 12), (13, 16)]:
        for first, last in [(0, 3), (4, 9), (10, 15)]:
            some = [c for c in accepted(calls) if low <= c.n <= high and first <= c.ahead <= last]
            if some:
                rows.append([f"N {low} to {high}, F {first} to {last}", len(some), spread(some, "original"), spread(some, "engine"), f"{ratio(some):.2f}"])
    failed = [c for c in calls if c.reply >= 20]
    rows.append(["failed calls (20 to 24)", len(failed), spread(failed, "original"), spread(failed, "engine"), f"{ratio(failed):.2f}"])
    return table(["", "calls", "original, ns", "engine, ns", "ratio"], rows)


def stack(folder):
    columns = {}
    for name in ["n4-f3", "n7-f3", "n16-f15", "recorded"]:
        lines = (folder / f"stack-{name}.txt").read_text().splitlines()
        columns[name] = {line.split("\t")[0]: int(line.split("\t")[2]) for line in lines}
    rows = [[kind] + [f"{columns[name][kind]:,}" for name in columns] for kind in columns["recorded"]]
    return table(["bytes", "N 4, F 3", "N 7, F 3", "N 16, F 15", "recorded runs"], rows)


def stroke(color, dashed):
    dashes = ' stroke-dasharray="5 4"' if dashed else ""
    return f'stroke="{color}" stroke-width="1.8"{dashes}'


def line(points, x, y, color, dashed):
    path = " ".join(f"{x(a):.1f},{y(b):.1f}" for a, b in points)
    dots = "".join(f'<circle cx="{x(a):.1f}" cy="{y(b):.1f}" r="2.5" fill="{color}"/>' for a, b in points)
    return f'<polyline points="{path}" fill="none" {stroke(color, dashed)}/>{dots}'


def panel(left, title, label, ticks, series):
    """A field of 420 by 300 with the series: name, color, dashed, points."""
    top = 1.05 * max(b for _, _, _, points in series for _, b in points)
    low, high = ticks[0], ticks[-1]
    x = lambda a: left + 60 + (a - low) / (high - low) * 340
    y = lambda b: 340 - b / top * 290
    step = next(s for s in [50, 100, 200, 250, 500, 1000, 2000, 5000] if top / s <= 8)
    out = [f'<text x="{left + 230}" y="24" text-anchor="middle" font-weight="bold">{title}</text>',
           f'<text x="{left + 230}" y="378" text-anchor="middle">{label}</text>']
    for b in range(0, int(top) + 1, step):
        out.append(f'<line x1="{left + 60}" x2="{left + 400}" y1="{y(b):.1f}" y2="{y(b):.1f}" stroke="#ddd"/>'
                   f'<text x="{left + 54}" y="{y(b) + 4:.1f}" text-anchor="end">{b}</text>')
    for a in ticks:
        out.append(f'<text x="{x(a):.1f}" y="358" text-anchor="middle">{a}</text>')
    for i, (name, color, dashed, points) in enumerate(series):
        out.append(line(points, x, y, color, dashed))
        at, by = left + 70 + 180 * (i % 2), 402 + 16 * (i // 2)
        out.append(f'<line x1="{at}" x2="{at + 24}" y1="{by}" y2="{by}" {stroke(color, dashed)}/>'
                   f'<text x="{at + 30}" y="{by + 4}">{name}</text>')
    return "\n".join(out)


def by_size(sized):
    series = []
    for ahead, color in [(0, "#4c9f70"), (3, "#2b6cb0"), (15, "#c05621")]:
        for what in ["engine", "original"]:
            points = [(n, mean(accepted(sized[n, ahead]), what)) for n in sorted({n for n, f in sized if f == ahead})]
            series.append((f"{what}, F {ahead}", color, what == "original", points))
    return series


def by_chain(sized):
    series = []
    for size, color in [((4, 3), "#4c9f70"), ((7, 3), "#2b6cb0"), ((16, 15), "#c05621")]:
        groups = collections.defaultdict(list)
        for call in accepted(sized[size]):
            groups[min(call.chain, 12) // 2 * 2].append(call)
        for what in ["engine", "original"]:
            points = [(k, mean(groups[k], what)) for k in sorted(groups) if len(groups[k]) >= 10]
            series.append((f"{what}, N {size[0]} F {size[1]}", color, what == "original", points))
    return series


def plot(sized):
    left = panel(0, "ns per accepted call, against N", "N", [1, 4, 7, 10, 13, 16], by_size(sized))
    right = panel(430, "ns per accepted call, against the chain's length", "answers in the chain, two by two; 12 and more", [0, 2, 4, 6, 8, 10, 12], by_chain(sized))
    return ('<svg xmlns="http://www.w3.org/2000/svg" width="860" height="450" font-family="sans-serif" font-size="12">\n'
            f'<rect width="860" height="450" fill="white"/>\n{left}\n{right}\n</svg>\n')


def main(folder):
    sized = {}
    for path in folder.glob("sized-*.tsv"):
        calls = read(path)
        sized[calls[0].n, calls[0].ahead] = calls
    lto = {size: read(folder / f"lto-n{size[0]}-f{size[1]}.tsv") for size in GOALS}
    machine = [x.strip() for x in (folder / "machine").read_text().splitlines()]
    empty = accepted([c for size in GOALS for c in sized[size]])
    share = sum(c.records == 1 for c in empty) / len(empty)
    busy = "The machine was busy, so times are provisional (ratios less so). " if float(machine[0].split()[2]) > 0.5 else ""
    text = "\n\n".join([
        f"Taken on: {machine[1]}, {machine[0]} when it began; {machine[2]}; the archive's SHA-256 begins with {machine[3]}. {busy}"
        "A figure is the mean over the calls of each call's median; in brackets the same of the quartiles.",
        "### Goals\n\n" + goals(sized, lto),
        "### By kind of call\n\n" + kinds(sized) + "\n\nA line of queries is all of them: three of the original's, four of the engine's, each with its range check.",
        "### Parts of an accepted call\n\n" + parts(sized) + f"\n\n{share:.0%} of these calls have an empty step.",
        "### Stack\n\n" + stack(folder),
        "### By N and F: engine, original (ns), ratio\n\n" + sizes(sized) + "\n\n![cost against N and against the length of the chain](cost.svg)",
        "### Recorded runs\n\n" + recorded(read(folder / "recorded.tsv")),
    ])
    readme = HERE / "README.md"
    head, _, rest = readme.read_text().partition("<!-- figures -->\n")
    _, _, tail = rest.partition("<!-- end of figures -->\n")
    readme.write_text(f"{head}<!-- figures -->\n\n{text}\n\n<!-- end of figures -->\n{tail}")
    (HERE / "cost.svg").write_text(plot(sized))
    print(goals(sized, lto))
    print(stack(folder))


if __name__ == "__main__":
    main(pathlib.Path(sys.argv[1]))
