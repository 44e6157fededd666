"""Draws the cost of a call, over the mixes, against sites times keys: fresh tables beside half full and full ones.

usage: python3 bench/plot.py FIGURES.tsv > OUT.svg
"""

import csv
import math
import sys
from collections import defaultdict

PANEL, HEIGHT, LEFT, GAP, TOP, BOTTOM = 260, 420, 64, 60, 64, 58
COLOURS = {"Forkcanyon": "#1f6fb2", "the second program": "#b2541f"}
TABLES = {"fresh": "fresh", "half": "half full", "full": "full"}


def means(rows):
    """(table, program, keys) to its points: sites times keys, and mean nanoseconds a call over the mixes."""
    cells = defaultdict(list)
    for row in rows:
        if row["mix"] == "1":
            for program, column in zip(COLOURS, ("ours_ns", "twins_ns")):
                line = (row["table"], program, int(row["keys"]))
                cells[line, int(row["sites"]) * int(row["keys"])].append(float(row[column]))
    lines = defaultdict(list)
    for (line, size), costs in sorted(cells.items()):
        lines[line].append((size, sum(costs) / len(costs)))
    return lines


def text(x, y, words, anchor="middle", colour="#222222"):
    return f'<text x="{x:.1f}" y="{y:.1f}" text-anchor="{anchor}" fill="{colour}">{words}</text>'


class Axes:
    """Both axes by powers: sizes by 2, costs by 10; the same for both panels."""

    def __init__(self, lines):
        points = [point for line in lines.values() for point in line]
        self.most_size = max(size for size, _ in points)
        self.low = math.floor(math.log10(min(cost for _, cost in points)))
        self.high = max(math.ceil(math.log10(max(cost for _, cost in points))), self.low + 1)

    def place(self, table, size, cost):
        start = LEFT + list(TABLES).index(table) * (PANEL + GAP)
        along = math.log2(size) / max(math.log2(self.most_size), 1)
        up = (math.log10(cost) - self.low) / (self.high - self.low)
        return start + PANEL * along, HEIGHT - BOTTOM - (HEIGHT - TOP - BOTTOM) * up

    def panel(self, table):
        left, top = self.place(table, 1, 10**self.high)
        right, bottom = self.place(table, self.most_size, 10**self.low)
        yield text((left + right) / 2, TOP - 12, f"{TABLES[table]} tables")
        for power in range(self.low, self.high + 1):
            _, y = self.place(table, 1, 10**power)
            yield f'<line x1="{left}" y1="{y:.1f}" x2="{right}" y2="{y:.1f}" stroke="#dddddd"/>'
            yield text(left - 6, y + 4, f"{10**power:,}", "end")
        for power in range(int(math.log2(self.most_size)) + 1):
            x, _ = self.place(table, 2**power, 1)
            yield f'<line x1="{x:.1f}" y1="{top:.1f}" x2="{x:.1f}" y2="{bottom:.1f}" stroke="#eeeeee"/>'
            yield text(x, bottom + 16, 2**power)
        yield text((left + right) / 2, HEIGHT - 16, "sites times keys")


def curve(axes, table, program, keys, points):
    colour = COLOURS[program]
    places = [axes.place(table, size, cost) for size, cost in points]
    path = " ".join(f"{x:.1f},{y:.1f}" for x, y in places)
    yield f'<polyline points="{path}" fill="none" stroke="{colour}" stroke-width="2"/>'
    for x, y in places:
        yield f'<circle cx="{x:.1f}" cy="{y:.1f}" r="3" fill="{colour}"/>'
    if program == "Forkcanyon":
        x, y = places[0]
        yield text(x + 6, y + 18, f"{keys} key{'s' * (keys > 1)}", "start", "#777777")


def main():
    if len(sys.argv) != 2:
        raise SystemExit(__doc__.strip())
    with open(sys.argv[1], newline="", encoding="utf-8") as file:
        lines = means(csv.DictReader(file, delimiter="\t"))
    if not lines:
        raise SystemExit("plot: no mix among the figures")
    axes = Axes(lines)
    width = LEFT + len(TABLES) * (PANEL + GAP) - GAP + 24
    parts = [
        f'<svg xmlns="http://www.w3.org/2000/svg" width="{width}" height="{HEIGHT}"'
        f' viewBox="0 0 {width} {HEIGHT}" font-family="sans-serif" font-size="12">',
        f'<rect width="{width}" height="{HEIGHT}" fill="white"/>',
        text(LEFT, 22, "nanoseconds a call, mean over the mixes", "start"),
    ]
    for at, (program, colour) in enumerate(COLOURS.items()):
        parts.append(text(LEFT + PANEL + GAP + 110 * at, 22, f"● {program}", "start", colour))
    for table in TABLES:
        parts.extend(axes.panel(table))
    for (table, program, keys), points in sorted(lines.items(), reverse=True):
        parts.extend(curve(axes, table, program, keys, points))
    print("\n".join([*parts, "</svg>"]))


main()
