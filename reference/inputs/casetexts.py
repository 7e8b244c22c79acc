"""Random case texts, as lists of lines without newlines."""

from dataclasses import dataclass

from model.case import KINDS, MAX_BODY, MAX_COST, MAX_DELAY, MAX_PORTS, MAX_RIP_COST
from model.casetext import prefix_line, read_case
from model.events import CMD, DOWN, UP
from model.nets import mask_of
from model.numbers import DIGITS, LOWER, U64_MAX


def joined(lines):
    """The text of these lines."""
    return b"".join(line + b"\n" for line in lines)


def a_name(rng, taken):
    """A name that isn't taken yet, now and then of 16 characters."""
    while True:
        size = rng.choice((1, 1, 2, 3, 16))
        name = bytes([rng.choice(LOWER)])
        name += bytes(rng.choice(LOWER + DIGITS) for _ in range(size - 1))
        if name not in taken:
            return name


@dataclass(frozen=True)
class Shape:
    """How large a random case is at the most; `prefixes` is a router's number of them."""

    kinds: tuple = KINDS
    routers: int = 6
    links: int = 8
    prefixes: int = 6
    groups: int = 12
    period: int = 60
    externals: int = 10


FLOOD = Shape(kinds=(b"flood",))
TINY = Shape(kinds=(b"flood",), routers=3, links=3, groups=4, period=30, externals=4)
BUSY = Shape(kinds=(b"flood",), routers=6, links=12, groups=5, period=200, externals=12)
CROWD = Shape(kinds=(b"flood",), routers=10, links=26, groups=3, period=90, externals=7)
MIXED = Shape(routers=4, links=5, prefixes=3, groups=15, period=40, externals=5)
FULL = Shape(routers=64, links=256, prefixes=32, groups=1, period=300_000, externals=60)
ANY = Shape()


def a_case(rng, shape):
    """The lines of a valid random case."""
    names, kinds, ports = [], [], {}
    for _ in range(rng.randint(1, shape.routers)):
        names.append(a_name(rng, names))
        kinds.append(rng.choice(shape.kinds))
    period, groups = rng.randint(1, shape.period), rng.randint(1, shape.groups)
    seed = rng.choice((0, 0, 1, rng.getrandbits(64), U64_MAX))
    lines = [b"defined 1", b"period %d" % period, b"groups %d" % groups, b"seed %d" % seed]
    lines += [b"router %s %s" % pair for pair in zip(names, kinds)]
    lines += some_links(rng, names, ports, rng.randint(0, shape.links), period)
    lines += some_prefixes(rng, names, kinds, shape.prefixes)
    lines.append(b"feed")
    lines += some_feed(rng, names, ports, groups, rng.randint(0, shape.externals))
    return lines + [b"end"]


def some_case(rng, shapes=(TINY, TINY, BUSY, FLOOD, MIXED)):
    """The text and the case of one of these shapes."""
    text = joined(a_case(rng, rng.choice(shapes)))
    return text, read_case(text)[0]


def some_links(rng, names, ports, count, period):
    """Link lines; `ports` counts the ports of each name."""
    lines = []
    while len(names) > 1 and len(lines) < count:
        a, b = rng.sample(names, 2)
        if max(ports.get(a, 0), ports.get(b, 0)) >= MAX_PORTS:
            break
        for name in (a, b):
            ports[name] = ports.get(name, 0) + 1
        delay = rng.choice((1, rng.randint(1, 3 * period), rng.randint(1, period), MAX_DELAY))
        cost = rng.choice((1, MAX_COST, rng.randint(1, 20)))
        lines.append(b"link %s %s %d %d" % (a, b, delay, cost))
    return lines


def some_prefixes(rng, names, kinds, count):
    """Prefix lines, those of different routers mixed."""
    per, held = {}, set()
    for name, kind in zip(names, kinds):
        if kind == b"flood":
            continue
        per[name] = []
        for _ in range(rng.randint(0, count)):
            length = rng.randint(0, 32)
            address = rng.getrandbits(32) & mask_of(length)
            if (name, address, length) in held:
                continue
            held.add((name, address, length))
            cost = rng.randint(1, MAX_RIP_COST if kind == b"rip" else MAX_COST)
            per[name].append(prefix_line(name, (address, length, cost)))
    lines, left = [], [name for name in per if per[name]]
    while left:
        name = rng.choice(left)
        lines.append(per[name].pop(0))
        left = [name for name in left if per[name]]
    return lines


def some_feed(rng, names, ports, groups, count):
    """External lines, groups rising."""
    stamps = sorted(rng.randrange(groups) for _ in range(count))
    return [b"@%d %s" % (group, an_input(rng, names, ports)) for group in stamps]


def an_input(rng, names, ports):
    """`NAME INPUT` that is good for these routers."""
    name = rng.choice(names)
    count = ports.get(name, 0)
    kind = rng.choice((CMD, CMD, DOWN, UP)) if count else CMD
    if kind == CMD:
        size = rng.choice((1, 1, 1, 2, 3, MAX_BODY if rng.random() < 0.1 else 4))
        body = bytes(rng.choice((0x41, 0x42, 0, 255, rng.randrange(256))) for _ in range(size))
        return b"%s cmd %s" % (name, body.hex().encode())
    return b"%s %s %d" % (name, b"down" if kind == DOWN else b"up", rng.randrange(count))
