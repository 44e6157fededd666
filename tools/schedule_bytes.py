"""The bytes of a schedule: document 01's header of two counts and steps of 48 bits."""

from typing import NamedTuple

OPERATIONS = ("put", "get", "deliver", "drain")
# The fields each operation uses, in the order people write them; the others are zero.
USES = {
    "put": ("site", "key", "value"),
    "get": ("site", "key"),
    "deliver": ("site", "origin"),
    "drain": ("site",),
    "retire": ("site",),  # no step of a schedule: it has no bytes
}
WIDTHS = {"site": 3, "origin": 3, "key": 8, "value": 32}
HEADER_BYTES = 2
STEP_BYTES = 6
MOST_STEPS = 10_922
MOST_BYTES = HEADER_BYTES + STEP_BYTES * MOST_STEPS


class Step(NamedTuple):
    operation: str
    site: int = 0
    origin: int = 0
    key: int = 0
    value: int = 0

    def unused(self):
        """The fields that are set though the operation does not use them."""
        return [name for name in WIDTHS if getattr(self, name) and name not in USES[self.operation]]


def step_bytes(step):
    bits = OPERATIONS.index(step.operation)
    for name, width in WIDTHS.items():
        number = getattr(step, name)
        if not 0 <= number < 1 << width:
            raise ValueError(f"{name} {number} does not fit {width} bits")
        bits = bits << width | number
    return bits.to_bytes(STEP_BYTES, "big")


def step_of(data):
    bits = int.from_bytes(data, "big")
    fields = {}
    for name, width in reversed(WIDTHS.items()):
        fields[name] = bits & (1 << width) - 1
        bits >>= width
    return Step(OPERATIONS[bits], **fields)


def steps_of(schedule):
    """The whole steps behind a header, at most as many as are read."""
    body = schedule[HEADER_BYTES:MOST_BYTES]
    whole = len(body) // STEP_BYTES * STEP_BYTES
    return [step_of(body[at : at + STEP_BYTES]) for at in range(0, whole, STEP_BYTES)]


def schedule_bytes(sites, keys, steps):
    return bytes([sites, keys]) + b"".join(map(step_bytes, steps))
