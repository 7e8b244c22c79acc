"""Profiles of cases of OSPF and RIP routers. Each draws a case and gives the model's run of it."""

from model.events import DOWN, UP
from model.guests.ospf.wire import UPDATE

from . import ospf_lsas, ospf_packets
from .attacks import Attacker, attack, attackers
from .networks import Builder

SHAPES = ("line", "ring", "none")


def disturbed(builder, rate):
    """The run of a case with disturbances alone."""
    return builder.go(lambda group: builder.disturb(group, rate))


def plain(rng):
    """2 to 8 OSPF routers, ports down and up, commands."""
    builder, count = Builder(rng, rng.choice((12, 30, 60, 120))), rng.randint(2, 8)
    builder.network([b"ospf"] * count, rng.randint(0, count), rng.choice(SHAPES))
    builder.some_prefixes((0, 0, 1, 3))
    return disturbed(builder, rng.choice((0, 0.02, 0.1, 0.5)))


def dense(rng):
    """OSPF routers with up to 16 ports, many links side by side."""
    builder, count = Builder(rng, rng.choice((12, 25, 45))), rng.randint(2, 5)
    builder.network([b"ospf"] * count, 12, rng.choice(("ring", "none")))
    for _ in range(rng.choice((0, 16))):
        builder.link(0, 1, rng.randint(1, builder.case.period))
    builder.some_prefixes((0, 1, 31))
    return disturbed(builder, rng.choice((0, 0.1, 0.6)))


def crowd(rng):
    """9 to 30 routers of all kinds in a sparse network."""
    builder, count = Builder(rng, rng.choice((12, 25))), rng.randint(9, 30)
    kinds = [rng.choice((b"ospf", b"ospf", b"ospf", b"ospf", b"flood", b"rip")) for _ in range(count)]
    builder.network(kinds, rng.randint(0, count // 4), rng.choice(SHAPES))
    builder.some_prefixes((0, 1))
    return disturbed(builder, rng.choice((0, 0.2, 0.6)))


def rip_alone(rng):
    """2 to 6 RIP routers over up to 350 groups: timers, updates of several messages."""
    builder, count = Builder(rng, rng.choice((40, 200, 350))), rng.randint(2, 6)
    builder.network([b"rip"] * count, rng.randint(0, count), rng.choice(SHAPES))
    builder.some_prefixes((0, 1, 3, 30))
    return disturbed(builder, rng.choice((0.01, 0.05, 0.3)))


def many_prefixes(rng):
    """Two OSPF or RIP routers with about 32 prefixes, and commands that set and withdraw some."""
    builder = Builder(rng, rng.choice((20, 40)))
    builder.network([rng.choice((b"ospf", b"rip"))] * 2, 0, "line")
    builder.some_prefixes((30, 31, 32))
    rate = rng.choice((0.3, 0.7))

    def each_group(group):
        while rng.random() < rate:
            builder.command(group, rng.randrange(2))
    return builder.go(each_group)


def attacked(rng, groups, kinds, links, rate, chaos):
    """The run of a case under attacks."""
    builder = Builder(rng, groups)
    builder.network(kinds, links, rng.choice(SHAPES))
    builder.some_prefixes((0, 0, 1, 2))
    return attack(builder, rate, chaos)


def hostile(rng):
    """One or two OSPF routers beside flooding routers."""
    kinds = rng.choice(("of", "fof", "foo", "ofo", "foof"))
    return attacked(rng, rng.choice((10, 20, 40, 80)), kinds_of(kinds), rng.randint(0, 2),
                    rng.choice((0.2, 0.4, 0.6)), rng.choice((0, 0, 0.03)))


def kinds_of(letters):
    """The kinds that these first letters name."""
    return [{"o": b"ospf", "f": b"flood", "r": b"rip"}[letter] for letter in letters]


def hostile_wide(rng):
    """Up to 8 routers of all kinds."""
    count = rng.randint(3, 8)
    kinds = "".join(rng.choice("ooofr") for _ in range(count))
    return attacked(rng, rng.choice((20, 60, 120)), kinds_of(kinds), rng.randint(0, count),
                    rng.choice((0.1, 0.3)), rng.choice((0, 0.05, 0.2)))


def hostile_many(rng):
    """Several flooding routers that speak to each OSPF router, with links side by side."""
    kinds = list("o" * rng.randint(1, 3) + "f" * rng.randint(2, 4))
    rng.shuffle(kinds)
    links = rng.randint(len(kinds), 2 * len(kinds))
    return attacked(rng, rng.choice((15, 40, 80)), kinds_of(kinds), links,
                    rng.choice((0.1, 0.3, 0.5)), rng.choice((0, 0.02, 0.1)))


def hostile_rip(rng):
    """RIP routers beside flooding routers."""
    count = rng.randint(2, 5)
    kinds = "".join(rng.choice("rrf") for _ in range(count))
    return attacked(rng, rng.choice((40, 200, 350)), kinds_of(kinds), rng.randint(1, count),
                    rng.choice((0.05, 0.3)), 0.05)


def packing(rng):
    """A database of about 1,400 bytes, sent whole and again and again."""
    builder = Builder(rng, rng.choice((30, 60)))
    builder.network(kinds_of("foo"), 0, "line")
    builder.prefixes(1, rng.choice((0, 1, 5, 32)))
    attacker = Attacker(builder, 0, 1, 0)

    def each_group(group):
        if group % 9 == 0:
            attacker.hello(group)
        elif group < 13:
            fill(attacker, group)
        if rng.random() < 0.1:
            attacker.act(group)
    return builder.go(each_group)


def fill(attacker, group):
    """As many LSAs of various lengths as a command can carry."""
    rng, lsas, size = attacker.rng, [], 28
    for place in range(9):
        number = 1000 * group + place
        lsa = ospf_lsas.made(rng.choice((0, 5)), number, number, 1, ospf_lsas.tos_body(rng, rng.randint(0, 5)))
        if size + lsa.head.length <= 255:
            lsas.append(lsa)
            size += lsa.head.length
    attacker.send(group, attacker.packet(UPDATE, ospf_packets.update_body(rng, lsas), False))


def last_sequence(rng):
    """The own LSA comes back near the greatest sequence number and grows old there."""
    builder = Builder(rng, 60)
    builder.network(kinds_of("foo"[:rng.choice((2, 3))]), rng.choice((0, 1)), "line")
    attacker = Attacker(builder, 0, 1, 0)
    rate, when = rng.choice((0, 0, 0.01, 0.1)), rng.choice(((2,), (2, 12), (2, 11, 12, 17)))

    def each_group(group):
        if group % 9 == 0 and (group < 30 or rng.random() < 0.9):
            attacker.hello(group)
        if group in when:
            age = rng.choice((0, 1, 3565, 3580, 3600))
            seq = rng.choice((0x7FFFFFFD, 0x7FFFFFFE, 0x7FFFFFFE, 0x7FFFFFFF))
            attacker.update_of(group, [ospf_lsas.made(age, 2, 2, seq, ospf_lsas.some_body(rng, 3))])
        if rng.random() < rate:
            attacker.act(group)
        if 20 < group and rng.random() < 0.1:
            builder.inject(group, 1, DOWN, 0)
            builder.inject(group, 1, UP, 0)
    return builder.go(each_group)


def deadline(rng):
    """LSAs that come to MaxAge at about the tick at which their neighbour dies."""
    builder = Builder(rng, 64)
    builder.network(kinds_of("foof"[:rng.choice((2, 3, 4))]), rng.choice((0, 1)), "line")
    found, last = attackers(builder), rng.randint(0, 20)

    def each_group(group):
        if group in (last, last - 10):
            for attacker in found:
                attacker.hello(group)
        if last < group < last + 45 and rng.random() < 0.15:
            attacker = rng.choice(found)
            age = 3600 - (last + 40 - group) + rng.choice((-1, 0, 0, 0, 1))
            lsa = ospf_lsas.fresh_lsa(rng, 4, attacker.victim + 1).at_age(max(0, min(age, 3600)))
            attacker.update_of(group, [lsa])
    return builder.go(each_group)


def isolated(rng):
    """OSPF routers over up to 4,096 groups: refresh, ageing out, a router that is alone for long."""
    builder, count = Builder(rng, rng.choice((2000, 4096))), rng.randint(1, 4)
    builder.network([b"ospf"] * count, rng.randint(0, 2), rng.choice(("line", "ring")))
    builder.some_prefixes((0, 1, 3))
    rate, router, begin = rng.choice((0, 0.0005, 0.002, 0.01)), rng.randrange(count), rng.randint(1, 60)
    changes = {begin: DOWN, begin + rng.choice((41, 500, 1700, 3590, 3601, 3650, 3700)): UP}

    def each_group(group):
        if group in changes:
            for port in range(builder.case.port_count(router)):
                builder.inject(group, router, changes[group], port)
        builder.disturb(group, rate)
    return builder.go(each_group)


def hostile_long(rng):
    """An attack over up to 4,096 groups."""
    return attacked(rng, rng.randint(400, 4096), kinds_of(rng.choice(("of", "foo"))), 1,
                    rng.choice((0.02, 0.1)), 0.003)


SHORT = (plain, dense, crowd, rip_alone, many_prefixes, hostile, hostile, hostile_wide, hostile_many,
         hostile_rip, packing, last_sequence, deadline)
LONG = (isolated, hostile_long)
