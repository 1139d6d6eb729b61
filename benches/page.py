"""The tables and the plot of docs/benchmarks.md."""

import math
import os
import re
import time
from pathlib import Path

from puzzles import TOP

PAGE = TOP / "docs/benchmarks.md"
PLOT = TOP / "docs/benchmarks.svg"
# The plot in pixels, and the range of its axes: the first value, and how many times ten is taken.
WIDTH, HEIGHT, LEFT, RIGHT, UPPER, LOWER = 640, 400, 60, 90, 20, 50
COLOURS = ("#0b5394", "#b45f06", "#6a329f")


def machine():
    """Returns what processors this machine has."""
    info = Path("/proc/cpuinfo").read_text()
    name = re.search(r"model name\s*: (.*)", info)
    words = re.sub(r"\((R|TM)\)|\b(CPU|Processor)\b", "", name[1] if name else os.uname().machine).split()
    return f"{os.cpu_count()} processors, {' '.join(words)}"


def block(name, tables):
    """Returns the tables of a command, with what repeats them, below the plot of `peers`."""
    above = [f"![Time over size]({PLOT.name})"] if name == "peers" else []
    said = f"`benches/run.py {name}`, {time.strftime('%Y-%m-%d')}, {machine()}"
    return "\n\n".join([*above, *map(str, tables), said])


def write(name, tables):
    """Writes the tables of a command between their markers in the page."""
    page = PAGE.read_text()
    first, last = f"<!-- {name} -->\n", f"\n<!-- end of {name} -->"
    if page.count(first) != 1 or page.count(last) != 1:
        raise SystemExit(f"run.py: {PAGE} has no place for {name}, between {first.strip()} and {last.strip()}")
    before, rest = page.split(first)
    _, after = rest.split(last)
    PAGE.write_text(f"{before}{first}{block(name, tables)}{last}{after}")


def scale(values, start, end):
    """Returns the logarithmic scale of an axis from `start` to `end`, on which all values are."""
    least, greatest = math.log(min(values)), math.log(max(values))
    return lambda value: start + (math.log(value) - least) / (greatest - least) * (end - start)


def line(points, colour, name):
    """Returns a line of the plot, with its points and its name at its end."""
    path = " ".join(f"{x:.1f},{y:.1f}" for x, y in points)
    circles = "".join(f'<circle cx="{x:.1f}" cy="{y:.1f}" r="3"/>' for x, y in points)
    x, y = points[-1]
    return (f'<g fill="{colour}"><polyline points="{path}" fill="none" stroke="{colour}" stroke-width="2"/>{circles}'
            f'<text x="{x + 8:.1f}" y="{y + 4:.1f}">{name}</text></g>')


def plot(table):
    """Draws the time over the side of pictures, as the table of `peers` has them."""
    names = [cell.split(",")[0].strip("`") for cell in table.head if cell.endswith(", ms")]
    rows = [row for row in table.rows if "`line`" in row[0]]
    sides = [int(re.search(r"of (\d+) by", row[0])[1]) for row in rows]
    times = [[float(row[k].replace(",", "")) for row in rows] for k in range(1, len(names) + 1)]
    least, greatest = (math.log10(end(map(end, times))) for end in (min, max))
    marks = [10.0**k for k in range(math.floor(least), math.ceil(greatest) + 1)]
    across, up = scale(sides, LEFT, WIDTH - RIGHT), scale(marks, HEIGHT - LOWER, UPPER)
    parts = [f'<svg xmlns="http://www.w3.org/2000/svg" viewBox="0 0 {WIDTH} {HEIGHT}" font-family="sans-serif" font-size="13">',
             f'<rect width="{WIDTH}" height="{HEIGHT}" fill="white"/>']
    for mark in marks:
        parts.append(f'<path d="M{LEFT} {up(mark):.1f}H{WIDTH - RIGHT}" stroke="#ddd"/>'
                     f'<text x="{LEFT - 8}" y="{up(mark) + 4:.1f}" text-anchor="end">{mark:,g}</text>')
    for side in sides:
        parts.append(f'<text x="{across(side):.1f}" y="{HEIGHT - LOWER + 20}" text-anchor="middle">{side}</text>')
    middle = (LEFT + WIDTH - RIGHT) / 2, (UPPER + HEIGHT - LOWER) / 2
    parts.append(f'<text x="{middle[0]}" y="{HEIGHT - 8}" text-anchor="middle">cells a side</text>'
                 f'<text transform="translate(14 {middle[1]}) rotate(-90)" text-anchor="middle">milliseconds</text>')
    for name, colour, values in zip(names, COLOURS, times):
        parts.append(line([(across(side), up(value)) for side, value in zip(sides, values)], colour, name))
    PLOT.write_text("\n".join([*parts, "</svg>"]) + "\n")
