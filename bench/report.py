"""Puts the figures of several layouts together, the least of each, and prints the ratios; fails if a mix is slower here.

usage: python3 bench/report.py OUT.tsv FIGURES.tsv...
"""

import csv
import sys

KEYS = ("table", "sites", "keys", "scene", "mix")
SHORT = "short_"  # before the name of a scene with short lists


def read(path):
    with open(path, newline="", encoding="utf-8") as file:
        for row in csv.DictReader(file, delimiter="\t"):
            yield tuple(row[key] for key in KEYS), (float(row["ours_ns"]), float(row["twins_ns"]))


def least(paths):
    """Each scene's least nanoseconds, here and in the second program, in the order of the first file."""
    costs = {}
    for path in paths:
        for key, cost in read(path):
            costs[key] = tuple(map(min, costs.get(key, cost), cost))
    return costs


def write(path, costs):
    with open(path, "w", newline="", encoding="utf-8") as file:
        out = csv.writer(file, delimiter="\t", lineterminator="\n")
        out.writerow(KEYS + ("ours_ns", "twins_ns"))
        out.writerows(key + cost for key, cost in costs.items())


def show(title, costs, short):
    rows = {}
    for (table, sites, keys, scene, mix), (ours, twins) in costs.items():
        if scene.startswith(SHORT) == short:
            rows.setdefault((table, sites, keys), []).append((scene.removeprefix(SHORT), mix, ours / twins))
    if not rows:
        return
    names = [(scene, mix) for scene, mix, _ in next(iter(rows.values()))]
    first_mix = [mix for _, mix in names].index("1")
    bar = lambda at: "  |" if at == first_mix else ""
    print(title)
    print(f"{'table':6}{'sites':>6}{'keys':>5}" + "".join(f"{bar(at)}{scene:>8}" for at, (scene, _) in enumerate(names)))
    for (table, sites, keys), cells in rows.items():
        ratios = "".join(f"{bar(at)}{ratio:8.2f}" for at, (_, _, ratio) in enumerate(cells))
        print(f"{table:6}{sites:>6}{keys:>5}{ratios}")


def worst(costs, mix):
    ratio, key = max((ours / twins, key) for key, (ours, twins) in costs.items() if key[4] == mix)
    return ratio, f"{key[3]}, {key[0]}, {key[1]} sites, {key[2]} keys"


def main():
    if len(sys.argv) < 3:
        raise SystemExit(__doc__.strip())
    costs = least(sys.argv[2:])
    write(sys.argv[1], costs)
    show("time of forkcanyon over time of twin, less is better", costs, False)
    show("the same with short lists", costs, True)
    for name, mix in (("call", "0"), ("mix", "1")):
        ratio, where = worst(costs, mix)
        print(f"worst {name:4} {ratio:.2f}: {where}")
    if worst(costs, "1")[0] > 1.0:
        raise SystemExit("bench: FAILED: a mix is slower than the second program")


main()
