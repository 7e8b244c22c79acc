"""Random networks of routers of all kinds, whose feed is made while the model runs them."""

from model.case import MAX_DELAY, MAX_LINKS, MAX_PERIOD, MAX_PORTS, Case, External, Router
from model.events import CMD, DOWN, UP, external_event
from model.lockstep import Run
from model.nets import mask_of
from model.numbers import U64_MAX
from model.octets import packed

SEEDS = (0, 0, 7, U64_MAX)
PERIODS = (1, 2, 5, 10, 100, 1000)
ADDRESSES = (0x0A000000, 0x0A090000, 0xC0A80100, 0xFFFFFFFF, 0x80000000)


class Builder:
    """A case, and the model's run of it, which takes each external as it is put in."""

    def __init__(self, rng, groups, period=None):
        self.rng = rng
        period = period or rng.choice((*PERIODS, rng.randint(1, MAX_PERIOD)))
        self.case = Case(period, groups, rng.choice((*SEEDS, rng.getrandbits(64))))
        self.run = None

    def inject(self, group, router, kind, number=0, body=b""):
        """An external more; its group isn't handled yet."""
        external = External(group, router, (kind, number, body))
        self.run.push(external_event(external, len(self.case.feed)))
        self.case.feed.append(external)

    def kind(self, router):
        """The kind of a router."""
        return self.case.routers[router].kind

    def guest(self, router):
        """The guest of a router, as it stands."""
        return self.run.nodes[router].guest

    def go(self, each_group):
        """Runs the case; before each group it calls `each_group`, which may inject."""
        self.run = Run(self.case)
        for group in range(self.case.groups):
            each_group(group)
            self.run.go(before_group=group + 1)
        self.run.go()
        return self.run

    # -- the network

    def network(self, kinds, links, shape):
        """Routers of the kinds; a line or ring of links, and some at random besides."""
        rng, count, period = self.rng, len(kinds), self.case.period
        self.case.routers += [Router(b"r%d" % number, kind) for number, kind in enumerate(kinds)]
        often = rng.randint(1, max(1, period // 10))
        delays = (1, often, often, rng.randint(1, period), rng.randint(1, 3 * period))
        pairs = [(router, router + 1) for router in range(count - 1)] if shape in ("line", "ring") else []
        if shape == "ring" and count > 2:
            pairs.append((count - 1, 0))
        for _ in range(links):
            pairs += [(rng.randrange(count), rng.randrange(count))] * rng.choice((1, 1, 1, 2, 3))
        for a, b in pairs:
            self.link(a, b, min(MAX_DELAY, rng.choice(delays)))

    def link(self, a, b, delay, cost=None):
        """A link, where it may be."""
        case = self.case
        is_room = max(case.port_count(a), case.port_count(b)) < MAX_PORTS and len(case.links) < MAX_LINKS
        if a != b and is_room:
            case.add_link(a, b, delay, cost or self.rng.choice((1, 1, 2, 10, 65535)))

    def prefixes(self, router, count):
        """So many prefixes of a router that may have some."""
        held = self.case.routers[router].prefixes
        while len(held) < count and self.kind(router) != b"flood":
            net = some_net(self.rng)
            if net not in [prefix[:2] for prefix in held]:
                costs = (1, 2, 15) if self.kind(router) == b"rip" else (1, 10, 65535)
                held.append((*net, self.rng.choice(costs)))

    def some_prefixes(self, counts):
        """Prefixes of each router, their number one of `counts`."""
        for router in range(len(self.case.routers)):
            self.prefixes(router, self.rng.choice(counts))

    # -- the feed

    def disturb(self, group, rate):
        """Ports that go down and up, and commands."""
        rng = self.rng
        while rng.random() < rate:
            router = rng.randrange(len(self.case.routers))
            ports = self.case.port_count(router)
            if ports and rng.random() < 0.6:
                self.inject(group, router, rng.choice((DOWN, UP, UP)), rng.randrange(ports))
            elif self.kind(router) == b"flood":
                self.inject(group, router, CMD, body=rng.randbytes(rng.choice((1, 2, 24, 255))))
            else:
                self.command(group, router)

    def command(self, group, router):
        """A command for an OSPF or RIP router."""
        guest = self.guest(router)
        known = sorted(guest.networks if self.kind(router) == b"ospf" else guest.table)
        self.inject(group, router, CMD, body=some_command(self.rng, known))


def some_net(rng):
    """An address and a length."""
    length = rng.choice((0, 1, 8, 16, 24, 31, 32, rng.randint(0, 32)))
    return rng.choice((*ADDRESSES, rng.getrandbits(32))) & mask_of(length), length


def some_command(rng, known):
    """A command that sets or withdraws a network; sometimes misformed."""
    address, length = rng.choice(known) if known and rng.random() < 0.4 else some_net(rng)
    cost = rng.choice((1, 2, 15, 16, 255, 256, 65535, 0)) if rng.random() < 0.5 else rng.randint(1, 15)
    if rng.random() < 0.6:
        body = packed((1, 1), (address, 4), (length, 1), (cost, 2))
    else:
        body = packed((2, 1), (address, 4), (length, 1))
    return misformed(rng, body) if rng.random() < 0.17 else body


def misformed(rng, body):
    """The command with another first byte, size or length, or random bytes."""
    fault = rng.randrange(4)
    if fault == 0:
        return bytes([rng.choice((0, 1, 2, 3))]) + body[1:]
    if fault == 1:
        return body[:rng.randint(1, len(body))] if rng.random() < 0.5 else body + rng.randbytes(1)
    if fault == 2:
        return body[:5] + bytes([rng.choice((33, 255, 1, 31))]) + body[6:]
    return rng.randbytes(rng.choice((1, 6, 8, 255)))
