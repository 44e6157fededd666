"""The listing of a schedule: its lines as numbers, in words, and how to have it printed."""

import os
import subprocess
from pathlib import Path
from typing import NamedTuple

from schedule_bytes import Step
from schedule_text import bytes_of, script_text

ROOT = Path(__file__).resolve().parents[1]
PROGRAM = ROOT / "tools" / "run_schedule"
TABLE = ROOT / "build" / "table"


class Line(NamedTuple):
    step: int
    code: int
    key: int
    site: int
    clock: int
    value: int


# Of what a schedule can answer, and a text with a retire, which 16 and 17 are of: no touch, no cold list and no adopt, so
# none of 13, 14 and 15.
REFUSALS = {
    3: "sites or keys out of range",
    4: "no such site",
    5: "a site does not deliver to itself",
    6: "no such key",
    8: "no room until every live site has applied more",
    9: "nothing new",
    12: "sets a field that it does not use",
    16: "the site is retired",
    17: "the last live site stays",
}


def output(command, data=b"", timeout=60):
    program = os.path.relpath(command[0]) if os.sep in command[0] else command[0]
    try:
        run = subprocess.run(command, input=data, capture_output=True, timeout=timeout, check=True)
    except FileNotFoundError:
        raise SystemExit(f"there is no {program} (make run)") from None
    except subprocess.CalledProcessError as failed:
        raise SystemExit(failed.stderr.decode().strip() or f"{program} has failed") from None
    return run.stdout.decode()


def print_listing(script):
    """What run_schedule, or the program RUN_SCHEDULE names, prints for a schedule; and for a text with a retire, build/table."""
    if not script.retires():
        return output([os.environ.get("RUN_SCHEDULE") or str(PROGRAM)], bytes_of(script))
    output(["make", "-s", "-C", str(ROOT), "build/table"], timeout=None)
    return output([str(TABLE), "listing"], script_text(script).encode())


def lines_of(listing):
    """The answers, and the last line."""
    *lines, last = listing.splitlines()
    return [Line(*map(int, line.split())) for line in lines], last


def sites_waited_for(line):
    """Beside a 10 the value is the sum of 2 to the power of each site."""
    return [site for site in range(8) if line.value >> site & 1]


def and_for(sites):
    """The other sites: nothing, ', and for site 2', ', and for sites 1, 2 and 7'."""
    if not sites:
        return ""
    *first, last = map(str, sites)
    return f", and for sites {', '.join(first)} and {last}" if first else f", and for site {last}"


def in_words(operation, line):
    if line.code == 10:
        return f"refused: waits for site {line.site}, clock {line.clock}{and_for(sites_waited_for(line)[1:])}"
    if line.code:
        return f"refused: {REFUSALS[line.code]}"
    if operation in ("open", "retire"):
        return {"open": "opened", "retire": "retired"}[operation]
    if operation == "drain":
        return f"{line.clock} delivered, {line.value} tried"
    if operation == "get" and not line.clock:
        return f"key {line.key} was never written here"
    if operation == "deliver":  # what the site then holds under the key is for its ranks to say, and a get to tell
        return f"applied put {line.clock} of site {line.site}: key {line.key}, value {line.value}"
    return f"key {line.key} is {line.value}, put {line.clock} of site {line.site}"


def puts_waited_for(script, step, line):
    """The clock for each site that a step, a refused delivery, waits for.

    The answer has the lowest one's. Of another site it is the clock of the delivery after which the step no longer
    waits for it: so the schedule up to the step is played on, with a delivery from each other site in turns, and the
    step again behind each.
    """
    clocks = {line.site: line.clock}
    if len(sites_waited_for(line)) == 1:
        return clocks
    others = [site for site in range(script.header[0]) if site not in (step.site, step.origin)]
    asked = [one for other in others for one in (Step("deliver", step.site, other), step)]
    rounds = 16 * len(others)  # as many updates as can be under way to one site
    begun = script._replace(steps=script.steps[: line.step] + asked * rounds, left=b"")
    answers, _ = lines_of(print_listing(begun))
    waits = sites_waited_for(line)
    for brought, again in zip(answers[line.step + 1 :: 2], answers[line.step + 2 :: 2]):
        still = sites_waited_for(again) if again.code == 10 else []
        if brought.code == 0 and brought.site in waits and brought.site not in still:
            clocks[brought.site] = brought.clock
        if not still:
            break
        waits = still
    if not clocks.keys() >= set(sites_waited_for(line)):
        raise SystemExit(f"step {line.step}: a schedule has no room behind it to ask for every clock it waits for")
    return dict(sorted(clocks.items()))
