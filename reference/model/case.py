"""The plain data of a case, and the limits of its numbers."""

from dataclasses import dataclass, field

MAX_ROUTERS = 64
MAX_LINKS = 256
MAX_PORTS = 16
MAX_PREFIXES = 32
MAX_GROUPS = 4096
MAX_PERIOD = 1_000_000
MAX_DELAY = 1_000_000
MAX_COST = 65_535
MAX_RIP_COST = 15
MAX_BODY = 255
MAX_PORT = 15

KINDS = (b"flood", b"ospf", b"rip")


@dataclass
class Router:
    """A router: its name, its kind, its prefixes as (address, len, cost)."""

    name: bytes
    kind: bytes
    prefixes: list = field(default_factory=list)


@dataclass(frozen=True)
class Link:
    """A link between port `a_port` of router `a` and `b_port` of `b`."""

    a: int
    a_port: int
    b: int
    b_port: int
    delay: int
    cost: int


@dataclass(frozen=True)
class External:
    """An external of the feed; `entry` is an input of module `events`."""

    group: int
    router: int
    entry: tuple


@dataclass
class Case:
    """A header and a feed."""

    period: int = 0
    groups: int = 0
    seed: int = 0
    routers: list = field(default_factory=list)
    links: list = field(default_factory=list)
    feed: list = field(default_factory=list)

    def router_number(self, name):
        """The number of the router of this name, or None."""
        for number, router in enumerate(self.routers):
            if router.name == name:
                return number
        return None

    def port_count(self, router):
        """How many ports the router has by the links read so far."""
        return sum((link.a == router) + (link.b == router) for link in self.links)

    def costs(self, router):
        """Per port of the router in order: the cost of its link."""
        return [link.cost for link in self.links for end in (link.a, link.b) if end == router]

    def add_link(self, a, b, delay, cost):
        """A link between the next ports of two different routers."""
        self.links.append(Link(a, self.port_count(a), b, self.port_count(b), delay, cost))

    def ends(self, router):
        """Per port of the router in order: (far router, far port, delay)."""
        found = []
        for link in self.links:
            if link.a == router:
                found.append((link.b, link.b_port, link.delay))
            if link.b == router:
                found.append((link.a, link.a_port, link.delay))
        return found
