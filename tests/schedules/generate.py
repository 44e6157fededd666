"""Schedules to hold the two programs against each other: (what it is, its bytes)."""

from schedule_bytes import MOST_BYTES, MOST_STEPS, Step, schedule_bytes

# How often each operation comes up: even; puts that run out of room; readers; links that lag.
MIXES = (
    {"put": 4, "get": 3, "deliver": 6, "drain": 1},
    {"put": 12, "get": 1, "deliver": 2, "drain": 1},
    {"put": 3, "get": 8, "deliver": 5, "drain": 0},
    {"put": 5, "get": 4, "deliver": 12, "drain": 0},
)


def random_step(rng, sites, keys, mix, slow):
    """Mostly between names that exist, seldom over a slow link; now and then a name that does not exist."""
    operation = rng.choices(list(mix), list(mix.values()))[0]
    wild = rng.random() < 0.03
    site = rng.randrange(8 if wild else sites)
    hasty = rng.random() < 0.95
    other = [name for name in range(sites) if name != site and not (hasty and (site, name) in slow)]
    origin = rng.randrange(8) if wild or not other else rng.choice(other)
    key = rng.randrange(256) if wild else rng.randrange(keys)
    value = rng.choice((rng.getrandbits(32), rng.getrandbits(8), 0, 2**32 - 1))
    if operation == "put":
        return Step("put", site, key=key, value=value)
    if operation == "get":
        return Step("get", site, key=key)
    if operation == "deliver":
        return Step("deliver", site, origin)
    return Step("drain", site)


def damaged(rng, data):
    """A few bits turned over behind the header: unused fields set, other operations, other names."""
    data = bytearray(data)
    for _ in range(rng.randrange(1, 9)):
        if len(data) > 2:
            data[rng.randrange(2, len(data))] ^= 1 << rng.randrange(8)
    return bytes(data)


def traffic(rng, sites, keys, length):
    """Slow links make deliveries wait for causes: a third site is heard of before it is heard."""
    mix = rng.choice(MIXES)
    slow = {(site, origin) for site in range(sites) for origin in range(sites) if rng.random() < 0.3}
    return schedule_bytes(sites, keys, [random_step(rng, sites, keys, mix, slow) for _ in range(length)])


def every_code():
    """One schedule that is made to meet each code a schedule can reach but open's 3."""
    fill = [Step("put", 0, key=0, value=clock) for clock in range(17)]  # the last: 8
    wait = [
        Step("deliver", 1, 0),
        Step("get", 1, key=0),
        Step("put", 1, key=1, value=6),
        Step("deliver", 2, 1),  # 10
        Step("deliver", 1, 1),  # 5
        Step("deliver", 0, 2),  # 9
        Step("deliver", 3, 3),  # 4 before 5
        Step("deliver", 0, 7),  # 4
        Step("drain", 2),
    ]
    names = [Step(operation, 3, key=key) for operation in ("put", "get") for key in (0, 2, 255)]
    names += [Step(operation, 0, key=key) for operation in ("put", "get") for key in (2, 64, 255)]
    names += [Step("drain", 7)]
    unused = [
        Step("put", 7, origin=1, key=255),
        Step("get", 7, origin=7, key=255),
        Step("get", 0, value=1),
        Step("deliver", 7, 7, key=1),
        Step("deliver", 1, 0, value=2**31),
        Step("drain", 7, origin=1),
        Step("drain", 0, key=128),
        Step("drain", 0, value=1),
    ]
    return schedule_bytes(3, 2, fill + wait + names + unused)


def schedules(rng):
    """A campaign: more than 500, the same for the same seed."""
    yield "every code", every_code()
    for sites in (0, 1, 8, 9, 127, 255):
        for keys in (0, 1, 64, 65, 255):
            yield "wild header", bytes([sites, keys]) + traffic(rng, 2, 2, rng.randrange(9))[2:]
    for sites in range(1, 9):
        for keys in range(1, 65):
            data = traffic(rng, sites, keys, rng.choice((7, 40, 150, 400)))
            yield "every count", damaged(rng, data) if rng.random() < 0.3 else data
    whole = traffic(rng, rng.randrange(2, 9), rng.randrange(1, 65), 20)
    for length in range(len(whole) + 1):
        yield "cut", whole[:length]
    for _ in range(20):
        yield "any bytes", bytes([rng.randrange(1, 9), rng.randrange(1, 65)]) + rng.randbytes(rng.randrange(3000))
    for sites, keys in ((1, 1), (2, 3), (3, 64), (8, 1), (8, 64)):
        full = traffic(rng, sites, keys, MOST_STEPS)
        assert len(full) == MOST_BYTES
        yield "full length", full
        yield "full and damaged", damaged(rng, full)
        yield "full and more", full + rng.randbytes(rng.choice((1, 5, 6, 7, 6000)))
        yield "full but for a byte", full[:-1]
        yield "full but for a step", full[:-6]
