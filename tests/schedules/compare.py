"""Plays schedules on both programs and compares what they print, byte for byte."""

import os
import random
import subprocess
import sys
import time
from pathlib import Path

ROOT = Path(__file__).resolve().parents[2]
sys.path.insert(0, str(ROOT / "tools"))

from generate import schedules  # noqa: E402
from schedule_bytes import OPERATIONS, steps_of  # noqa: E402

SECONDS_A_RUN = 10
KEPT = ROOT / "build" / "failed.schedule"
# What a schedule can reach; 1, 2, 7 and 11 it cannot: room, budget and step count forbid them.
REACHABLE = {
    "open": {0, 3},
    "put": {0, 4, 6, 8, 12},
    "get": {0, 4, 6, 12},
    "deliver": {0, 4, 5, 9, 10, 12},
    "drain": {0, 4, 12},
    "waits": {"1 site", "2 sites", "3 or more"},
    "last": {"end", "cut 0", "cut 1", "cut 2", "cut 3", "cut 4", "cut 5"},
}


def printed(program, data):
    """What the program prints, or why it did not."""
    try:
        run = subprocess.run([program], input=data, capture_output=True, timeout=SECONDS_A_RUN, check=False)
    except subprocess.TimeoutExpired:
        return f"(no end after {SECONDS_A_RUN} s)".encode()
    if run.returncode or run.stderr:
        return f"(exit {run.returncode}: {run.stderr[:200]!r})".encode()
    return run.stdout


def note(met, data, text):
    """Which code each operation met, for how many sites a delivery waited, and how the listing ends."""
    *lines, last = text.decode().splitlines()
    met["last"].add("end" if last.startswith("end ") else last)
    operations = ["open"] + [step.operation for step in steps_of(data)]
    for operation, line in zip(operations, lines):
        code, value = int(line.split()[1]), int(line.split()[5])
        met[operation].add(code)
        if code == 10:
            met["waits"].add(("no site", "1 site", "2 sites", "3 or more")[min(bin(value).count("1"), 3)])
    return len(lines)


def complain(name, data, ours, twins):
    KEPT.parent.mkdir(exist_ok=True)
    KEPT.write_bytes(data)
    print(f"schedules: DIFFERENT on '{name}', {len(data)} bytes, kept in {KEPT.relative_to(ROOT)}")
    pairs = zip(ours.splitlines() + [b"(nothing)"], twins.splitlines() + [b"(nothing)"])
    where, (mine, other) = next((at, pair) for at, pair in enumerate(pairs) if pair[0] != pair[1])
    print(f"  line {where}: run_schedule {mine.decode(errors='replace')}, twin {other.decode(errors='replace')}")


def main():
    program, twin = sys.argv[1:]
    seed = int(os.environ.get("SEED") or random.randrange(2**32))
    seconds = float(os.environ.get("SECONDS_TO_RUN") or 0)
    print(f"schedules: SEED={seed}")
    rng = random.Random(seed)
    met = {name: set() for name in ("open", *OPERATIONS, "waits", "last")}
    played = steps = 0
    until = time.monotonic() + seconds
    while not played or time.monotonic() < until:
        for name, data in schedules(rng):
            ours, twins = printed(program, data), printed(twin, data)
            if ours != twins:
                return complain(name, data, ours, twins) or 1
            steps += note(met, data, twins)
            played += 1
    print(f"schedules: {played} played, {steps} lines, all the same")
    for name, codes in met.items():
        print(f"  {name}: {', '.join(map(str, sorted(codes)))}")
    if met != REACHABLE:
        print(f"schedules: these were to be met, no more and no fewer: {REACHABLE}")
        return 1
    if played < 500:
        print("schedules: fewer than 500")
        return 1
    return 0


sys.exit(main())
