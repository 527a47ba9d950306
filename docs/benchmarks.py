#!/usr/bin/env python3
"""Makes the tables and the picture of docs/BENCHMARKS.md:

    docs/benchmarks.py RUN RUN RUN
    docs/benchmarks.py --picture [FILE]

The first reads what three runs of `cargo bench --offline` printed and prints the page's tables: each line with the figures of the run whose ratio is the
middle one and with the lowest and the highest ratio, each time as the middle one of the three. The second reads the times as they stand on the page and
draws docs/growth.svg, or FILE. The same page always gives the same picture."""
import math
import sys
from pathlib import Path

FOLDER = Path(__file__).resolve().parent
RATIOS, BY_LENGTH, BY_FACTOR = "Ratios", "Time against N, at m = 1", "Time against m, at N = 32,768"
SPREAD = "lowest to highest"


def tables(path):
    """The rows of cells under each heading that has a table, the columns' names first."""
    found, heading = {}, ""
    for line in Path(path).read_text(encoding="utf-8").splitlines():
        if line.startswith("#"):
            heading = line.strip("# ")
        elif line.startswith("|") and line.strip("|- "):
            found.setdefault(heading, []).append([cell.strip() for cell in line.strip()[1:-1].split("|")])
    for heading in RATIOS, BY_LENGTH, BY_FACTOR:
        if heading not in found:
            sys.exit(f"benchmarks: {path} has no table under the heading '{heading}'")
    return found


# ---- the page's tables, from three runs


def middle(cells):
    """The middle one of three figures; a blank where no run has one."""
    return sorted(cells, key=float)[1] if any(cells) else ""


def line_of_ratios(rows):
    """One work at one factor: the row of the middle ratio, and the spread of the three."""
    ordered = sorted(rows, key=lambda row: float(row[-1]))
    return [*ordered[1], f"{ordered[0][-1]} to {ordered[2][-1]}"]


def line_of_times(rows):
    return [rows[0][0], *map(middle, list(zip(*rows))[1:])]


def printed(heading, names, rows):
    first, *others = [f"| {' | '.join(cells)} |" for cells in (names, *rows)]
    return "\n".join([f"## {heading}", "", first, "|---" * len(names) + "|", *others, ""])


def page_tables(paths):
    """The tables of the page, in its order."""
    runs = [tables(path) for path in paths]
    for heading in RATIOS, BY_LENGTH, BY_FACTOR:
        if len({tuple(row[0] for row in run[heading]) for run in runs}) > 1:
            sys.exit(f"benchmarks: the runs do not have the same lines under the heading '{heading}'")
        names, *lines = zip(*(run[heading] for run in runs))
        if heading == RATIOS:
            yield printed(heading, [*names[0], SPREAD], map(line_of_ratios, lines))
        else:
            yield printed(heading, names[0], map(line_of_times, lines))


# ---- the picture, from the page

WIDTH, HEIGHT = 1030, 430
TOP, BOTTOM = 50, 365
COLOURS = {"Allan sum": "#0072b2", "modified sum": "#d55e00", "meter": "#00795a", "naive modified sum": "#555555"}
DASHED = "naive modified sum"
INSET = 12  # from a panel's edge to its first and last point
LINE = 17  # the least distance of two labels
HALO = 'stroke="#ffffff" stroke-width="4" paint-order="stroke"'  # keeps the grid off a label


class Axis:
    """A logarithmic axis: where a value lies on it, between two places of the picture."""

    def __init__(self, values, start, end):
        self.low, self.high = math.log10(min(values)), math.log10(max(values))
        self.start, self.end = start, end

    def place(self, value):
        return self.start + (math.log10(value) - self.low) / (self.high - self.low) * (self.end - self.start)

    def decades(self):
        return [10**k for k in range(math.ceil(self.low), math.floor(self.high) + 1)]


def text(x, y, words, anchor="start", more=""):
    return f'<text x="{x:.1f}" y="{y:.1f}" text-anchor="{anchor}"{more}>{words}</text>'


def rule(x1, y1, x2, y2, colour="#d8d8d8"):
    return f'<line x1="{x1:.1f}" y1="{y1:.1f}" x2="{x2:.1f}" y2="{y2:.1f}" stroke="{colour}"/>'


def series(table):
    """The points of each column, by its name."""
    (_, *names), *rows = table
    return {name: [(int(row[0]), float(row[at])) for row in rows if row[at]] for at, name in enumerate(names, 1)}


def curve(name, places):
    dashes = ' stroke-dasharray="6 4"' if name == DASHED else ""
    points = " ".join(f"{x:.1f},{y:.1f}" for x, y in places)
    yield f'<polyline points="{points}" fill="none" stroke="{COLOURS[name]}" stroke-width="2"{dashes}/>'
    for x, y in places:
        yield f'<circle cx="{x:.1f}" cy="{y:.1f}" r="3" fill="{COLOURS[name]}"/>'


def labels(ends):
    """The curves' names beside their last points, moved down where two at one place would meet; that of the dashed one, which ends first, above it."""
    lowest = {}
    for y, x, name in sorted((y, x, name) for name, (x, y) in ends.items()):
        drawn = f' fill="{COLOURS[name]}" font-weight="bold" {HALO}'
        if name == DASHED:
            yield text(x, y - INSET, name, "middle", drawn)
            continue
        lowest[x] = max(y, lowest.get(x, 0) + LINE)
        yield text(x + INSET + 4, lowest[x] + 4, name, more=drawn)


def panel(table, left, right, height, title, below, ticks):
    """One panel: its grid with the figures beside it, its curves and their names."""
    found = series(table)
    across = Axis([x for points in found.values() for x, _ in points], left + INSET, right - INSET)
    for value in ticks or across.decades():
        yield rule(across.place(value), TOP, across.place(value), BOTTOM)
        yield text(across.place(value), BOTTOM + 19, f"{value:,}", "middle")
    for value in height.decades():
        yield rule(left, height.place(value), right, height.place(value))
        yield text(left - 8, height.place(value) + 4, f"{value:,}", "end")
    yield rule(left, BOTTOM, right, BOTTOM, "#333333")
    yield rule(left, TOP, left, BOTTOM, "#333333")
    yield text((left + right) / 2, TOP - 16, title, "middle", ' font-weight="bold" font-size="15"')
    yield text((left + right) / 2, BOTTOM + 44, below, "middle")
    places = {name: [(across.place(x), height.place(y)) for x, y in points] for name, points in found.items()}
    for name, points in places.items():
        yield from curve(name, points)
    yield from labels({name: points[-1] for name, points in places.items()})


def picture(page):
    by_length, by_factor = page[BY_LENGTH], page[BY_FACTOR]
    times = [y for table in (by_length, by_factor) for points in series(table).values() for _, y in points]
    height = Axis([min(times) / 1.5, max(times) * 3], BOTTOM, TOP)
    lengths = [int(row[0]) for row in by_length[1:]]
    side = (TOP + BOTTOM) / 2
    return "\n".join([
        f'<svg xmlns="http://www.w3.org/2000/svg" viewBox="0 0 {WIDTH} {HEIGHT}" width="{WIDTH}" height="{HEIGHT}" role="img" '
        'font-family="Helvetica, Arial, sans-serif" font-size="13" fill="#333333">',
        "<title>The time for a whole record, as the record grows and as the factor grows</title>",
        f'<rect width="{WIDTH}" height="{HEIGHT}" fill="#ffffff"/>',
        text(20, side, "microseconds for a whole record", "middle", f' transform="rotate(-90 20 {side:.1f})"'),
        *panel(by_length, 80, 420, height, BY_LENGTH, "N, samples of the record", lengths),
        *panel(by_factor, 590, 910, height, BY_FACTOR, "m, the factor in basic intervals", None),
        text(902, BOTTOM - 48, "fewer windows fit into the record at large m", "end", f' font-style="italic" font-size="12" {HALO}'),
        "</svg>\n",
    ])


def main(arguments):
    if arguments[:1] == ["--picture"] and len(arguments) <= 2:
        path = Path(arguments[1]) if arguments[1:] else FOLDER / "growth.svg"
        path.write_text(picture(tables(FOLDER / "BENCHMARKS.md")), encoding="utf-8")
    elif len(arguments) == 3:
        print("\n".join(page_tables(arguments)), end="")
    else:
        sys.exit(__doc__)


if __name__ == "__main__":
    main(sys.argv[1:])
