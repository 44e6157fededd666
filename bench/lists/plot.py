"""Draws what short lists save: how many clocks of an update's list are not 0, and their mean day by day.

usage: python3 bench/lists/plot.py FIGURES.tsv > OUT.svg
"""

import csv
import sys

PANEL, HEIGHT, LEFT, GAP, TOP, BOTTOM = 400, 340, 56, 76, 64, 58
COLOURS = {"our": "#b2541f", "short": "#1f6fb2"}
SITES = 8


def text(x, y, words, anchor="middle", colour="#222222"):
    return f'<text x="{x:.1f}" y="{y:.1f}" text-anchor="{anchor}" fill="{colour}">{words}</text>'


class Panel:
    """One of two: places from 0 to across, heights from 0 to most."""

    def __init__(self, number, across, most):
        self.left, self.across, self.most = LEFT + number * (PANEL + GAP), across, most

    def place(self, along, up):
        bottom = HEIGHT - BOTTOM
        return self.left + PANEL * along / self.across, bottom - (bottom - TOP) * up / self.most

    def frame(self, title, below, ticks, unit=""):
        yield text(self.left + PANEL / 2, TOP - 14, title)
        for tick in ticks:
            _, y = self.place(0, tick)
            yield f'<line x1="{self.left}" y1="{y:.1f}" x2="{self.left + PANEL}" y2="{y:.1f}" stroke="#dddddd"/>'
            yield text(self.left - 6, y + 4, f"{tick}{unit}", "end")
        yield text(self.left + PANEL / 2, HEIGHT - 16, below)

    def name(self, along, words):
        x, y = self.place(along, 0)
        yield text(x, y + 16, words)


def shares(rows):
    """A bar for each engine: of all updates, how many have so many clocks that are not 0."""
    panel = Panel(0, SITES + 1, 100)
    yield from panel.frame("share of the updates", "clocks that are not 0", range(0, 101, 20), "%")
    for row in rows:
        at = int(row["at"])
        yield from panel.name(at + 0.5, at)
        for side, engine in enumerate(COLOURS):
            share = 100 * int(row[engine]) / int(row["updates"])
            x, y = panel.place(at + 0.14 + 0.36 * side, share)
            right, bottom = panel.place(at + 0.5 + 0.36 * side, 0)
            yield (
                f'<rect x="{x:.1f}" y="{y:.1f}" width="{right - x:.1f}" height="{bottom - y:.1f}"'
                f' fill="{COLOURS[engine]}"/>'
            )


def days(rows):
    """A line for each engine: the mean of each day."""
    panel = Panel(1, len(rows), SITES)
    yield from panel.frame("mean of each day", "day", range(0, SITES + 1, 2))
    for row in rows:
        if int(row["at"]) % 5 == 0 or row["at"] == "1":
            yield from panel.name(int(row["at"]) - 0.5, row["at"])
    for engine, colour in COLOURS.items():
        places = [panel.place(int(row["at"]) - 0.5, int(row[engine]) / int(row["updates"])) for row in rows]
        path = " ".join(f"{x:.1f},{y:.1f}" for x, y in places)
        yield f'<polyline points="{path}" fill="none" stroke="{colour}" stroke-width="2"/>'


def main():
    if len(sys.argv) != 2:
        raise SystemExit(__doc__.strip())
    with open(sys.argv[1], newline="", encoding="utf-8") as file:
        rows = list(csv.DictReader(file, delimiter="\t"))
    width = LEFT + 2 * PANEL + GAP + 24
    parts = [
        f'<svg xmlns="http://www.w3.org/2000/svg" width="{width}" height="{HEIGHT}"'
        f' viewBox="0 0 {width} {HEIGHT}" font-family="sans-serif" font-size="12">',
        f'<rect width="{width}" height="{HEIGHT}" fill="white"/>',
        text(LEFT, 22, "what an update carries: clocks of its eight that are not 0", "start"),
    ]
    for at, (engine, colour) in enumerate(COLOURS.items()):
        parts.append(text(LEFT + PANEL + GAP + 110 * at, 22, f"● {engine} lists", "start", colour))
    parts.extend(shares([row for row in rows if row["what"] == "pairs"]))
    parts.extend(days([row for row in rows if row["what"] == "day"]))
    print("\n".join([*parts, "</svg>"]))


main()
