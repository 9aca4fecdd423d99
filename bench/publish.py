#!/usr/bin/env python3
"""publish.py TSV MARKDOWN SVG: puts a benchmark's table into the document, between its marks, and draws the plot."""

import csv
import math
import sys
from collections import namedtuple

COLOURS = {"ours flush": "#0072b2", "ours none": "#56b4e9", "ours msync": "#0072b2", "C by hand": "#e69f00", "floor": "#777777",
           "before": "#999933", "libpmemobj": "#d55e00", "LMDB": "#009e73", "SQLite": "#cc79a7"}
GROWTH_ROWS = ["insert", "lookup, hit", "recovery"]

Key = namedtuple("Key", "work frames row place column")
Value = namedtuple("Value", "lower median upper ratio")
Aim = namedtuple("Aim", "key against ratio most")


def read(path):
    """All values by their key in the file's sequence, and the ratios that have an aim."""
    values, aims = {}, []
    with open(path, newline="") as file:
        for line in csv.DictReader(file, delimiter="\t"):
            key = Key(line["work"], int(line["frames"]), line["row"], line["place"], line["column"])
            if line["against"] in ("floor", ""):
                values[key] = Value(*(float(line[name] or "nan") for name in Value._fields))
            if float(line["aim"]) > 0:
                aims.append(Aim(key, line["against"], float(line["ratio"]), float(line["aim"])))
    return values, aims


def distinct(values, field, **fixed):
    """The values that a field of the keys has where other fields are fixed, each once."""
    found = (key for key in values if all(getattr(key, name) == value for name, value in fixed.items()))
    return list(dict.fromkeys(getattr(key, field) for key in found))


def time_text(ns):
    unit = "ns"
    for larger in ("µs", "ms"):
        if ns >= 9999.5:
            ns, unit = ns / 1000, larger
    return f"{ns:,.{2 if ns < 9.995 else 1 if ns < 99.95 else 0}f} {unit}"


def power_text(power):
    """A power of ten nanoseconds."""
    return f"{10 ** (power % 3)} {('ps', 'ns', 'µs', 'ms', 's')[power // 3 + 1]}"


def ratio_text(ratio):
    return f"{ratio:.{2 if ratio < 9.995 else 1 if ratio < 99.95 else 0}f}"


def markdown(header, lines):
    table = [header, ["---"] * len(header)] + lines
    return "\n".join("| " + " | ".join(line) + " |" for line in table) + "\n"


def cell(key, value):
    if key.row == "bytes":
        return f"{value.median:.1f}"
    ratio = "" if key.column == "floor" else f" (× {ratio_text(value.ratio)})"
    return time_text(value.median) + ratio


def table(values, work, frames, place):
    fixed = {"work": work, "frames": frames, "place": place}
    columns = distinct(values, "column", **fixed)
    lines = []
    for row in distinct(values, "row", **fixed):
        keys = [Key(work, frames, row, place, column) for column in columns]
        lines.append([row] + [cell(key, values[key]) for key in keys])
    return f"{frames:,} {work} frames, {place}:\n\n" + markdown([""] + columns, lines)


def growth_table(values, sizes):
    columns = distinct(values, "column", place="memory")
    lines = []
    for row in GROWTH_ROWS:
        for frames in sizes:
            keys = [Key("random", frames, row, "memory", column) for column in columns]
            lines.append([row, f"{frames:,}"] + [cell(key, values[key]) for key in keys])
    return "Growth, random frames, memory:\n\n" + markdown(["", "frames"] + columns, lines)


def aims_table(aims):
    lines = []
    for key, against, ratio, most in aims:
        verdict = "met" if ratio <= most else "**not met**"
        lines.append([key.place, key.work, key.row, f"{key.column} / {against}", ratio_text(ratio), f"{most:.2f}", verdict])
    return "Aims:\n\n" + markdown(["place", "frames", "row", "ratio", "reached", "at most", ""], lines)


def replace_marked(path, text):
    with open(path) as file:
        document = file.read()
    begin, end = "<!-- tables -->\n", "<!-- end of tables -->"
    if begin not in document or end not in document:
        sys.exit(f"{path}: no marks for the tables")
    head, rest = document.split(begin, 1)
    with open(path, "w") as file:
        file.write(head + begin + "\n" + text + "\n" + end + rest.split(end, 1)[1])


class Scale:
    """A logarithmic scale from a range of values to a range of pixels, with room to the next powers of ten."""

    def __init__(self, numbers, start, stop):
        self.low = math.floor(math.log10(min(numbers)))
        self.high = math.ceil(math.log10(max(numbers)))
        self.start, self.stop = start, stop

    def at(self, number):
        return self.start + (math.log10(number) - self.low) / (self.high - self.low) * (self.stop - self.start)

    def ticks(self):
        """The place of each power of ten, and its text."""
        return [(self.at(10.0 ** power), power_text(power)) for power in range(self.low, self.high + 1)]


def label(x, y, content, anchor="start", colour="#333333", size=12, weight="normal"):
    return (f'<text x="{x:.1f}" y="{y:.1f}" text-anchor="{anchor}" fill="{colour}" font-size="{size}" '
            f'font-weight="{weight}">{content}</text>')


def line(x1, y1, x2, y2, colour="#dddddd", width=1.0):
    return f'<line x1="{x1:.1f}" y1="{y1:.1f}" x2="{x2:.1f}" y2="{y2:.1f}" stroke="{colour}" stroke-width="{width}"/>'


def dot(x, y, colour):
    return f'<circle cx="{x:.1f}" cy="{y:.1f}" r="4" fill="{colour}"/>'


def dots(values, work, frames, place, top, width):
    """A line for each row and column: its median as a dot, its quartiles as a stroke. Hands back the elements and the bottom."""
    fixed = {"work": work, "frames": frames, "place": place}
    keys = [key for row in distinct(values, "row", **fixed) if row != "bytes"
            for key in values if key.row == row and (key.work, key.frames, key.place) == (work, frames, place)]
    scale = Scale([getattr(values[key], name) for key in keys for name in ("lower", "upper")], 200, width - 90)
    parts, y, last = [label(10, top, f"{frames:,} {work} frames, {place}", weight="bold")], top + 8, None
    for key in keys:
        y += 15 if key.row == last else 24
        if key.row != last:
            parts.append(label(10, y + 4, key.row))
        value, colour, last = values[key], COLOURS[key.column], key.row
        parts.append(label(190, y + 4, key.column, "end", colour))
        parts.append(line(scale.at(value.lower), y, scale.at(value.upper), y, colour, 3))
        parts.append(dot(scale.at(value.median), y, colour))
        parts.append(label(max(scale.at(value.median), scale.at(value.upper)) + 8, y + 4, time_text(value.median), size=10))
    grid = [line(x, top + 14, x, y + 12) for x, _ in scale.ticks()]
    names = [label(x, y + 26, text, "middle", size=10) for x, text in scale.ticks()]
    return grid + names + parts, y + 26


def curves(values, row, sizes, left, top, width, height):
    """Time against frames for one row."""
    columns = distinct(values, "column", place="memory", row=row)
    median = {(column, frames): values[Key("random", frames, row, "memory", column)].median
              for column in columns for frames in sizes}
    across, up = Scale(sizes, left, left + width), Scale(median.values(), top + height, top)
    parts = [label(left, top - 10, row, weight="bold")]
    for y, text in up.ticks():
        parts += [line(left, y, left + width, y), label(left - 6, y + 4, text, "end", size=10)]
    for frames in sizes:
        parts.append(label(across.at(frames), top + height + 16, f"{frames:,}", "middle", size=10))
    for column in columns:
        points = [(across.at(frames), up.at(median[column, frames])) for frames in sizes]
        path = " ".join(f"{x:.1f},{y:.1f}" for x, y in points)
        parts.append(f'<polyline points="{path}" fill="none" stroke="{COLOURS[column]}" stroke-width="2"/>')
        parts += [dot(x, y, COLOURS[column]) for x, y in points]
    return parts


def plot(values, frames, sizes):
    width, parts, bottom = 900, [], 0
    for work, place in (("random", "memory"), ("random", "disk")):
        if distinct(values, "row", work=work, frames=frames, place=place):
            more, bottom = dots(values, work, frames, place, bottom + 34, width)
            parts += more
    parts.append(label(10, bottom + 40, "Growth with random frames, memory (colours as above)", weight="bold"))
    for column, row in enumerate(GROWTH_ROWS):
        parts += curves(values, row, sizes, 70 + 290 * column, bottom + 80, 200, 220)
    height = bottom + 330
    return (f'<svg xmlns="http://www.w3.org/2000/svg" width="{width}" height="{height}" viewBox="0 0 {width} {height}" '
            'font-family="sans-serif">\n<title>Time for an operation, logarithmic scale</title>\n'
            '<rect width="100%" height="100%" fill="#ffffff"/>\n' + "\n".join(parts) + "\n</svg>\n")


def main():
    if len(sys.argv) != 4:
        sys.exit(__doc__)
    values, aims = read(sys.argv[1])
    sizes = sorted(distinct(values, "frames", work="random"))
    frames = sizes[-1]
    if len(sizes) < 2:
        sys.exit(f"{sys.argv[1]}: not of a whole run")
    tables = [table(values, work, frames, place) for work in distinct(values, "work") for place in distinct(values, "place")]
    replace_marked(sys.argv[2], "\n".join(tables + [growth_table(values, sizes), aims_table(aims)]))
    with open(sys.argv[3], "w") as file:
        file.write(plot(values, frames, sizes))


if __name__ == "__main__":
    main()
