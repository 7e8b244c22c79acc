"""A network on its way to a case: routers, links, feed, and notes of what couldn't be taken."""

import re
import unicodedata
from dataclasses import dataclass, field

from library.commands import net as net_text
from library.tool import BadInput
from model import case as limits
from model.case import Case, Router
from model.casetext import Fault, read_case, write_case
from model.nets import has_host_bits

from .words import externals_of

FIRST_NETWORK = 0x0A000000


@dataclass(frozen=True)
class Settings:
    """What the input doesn't say: numbers of the case, and values where a link or router has none.

    `delay` is in moments; `period` is the number of moments in a second; `reference` is the bandwidth in bits a
    second whose cost is 1.
    """

    period: int = 1000
    groups: int = 200
    seed: int = 0
    kind: str = "ospf"
    delay: int = 10
    cost: int = 10
    reference: float = 100e9
    networks: bool = True
    around: str | None = None


@dataclass
class Node:
    """A router: its name in the case, its kind, its prefixes as (address, length, cost)."""

    name: str
    kind: str
    prefixes: list[tuple[int, int, int]] = field(default_factory=list)


@dataclass
class Edge:
    """A link between two routers, by their keys in the input."""

    a: str
    b: str
    delay: int
    cost: int


@dataclass
class Network:
    """Routers by their keys in the input, links, the feed's lines in words, and notes."""

    settings: Settings
    nodes: dict[str, Node] = field(default_factory=dict)
    edges: list[Edge] = field(default_factory=list)
    feed: list[str] = field(default_factory=list)
    notes: list[str] = field(default_factory=list)

    def note(self, text: str) -> None:
        """Notes something that couldn't be taken, or was changed."""
        self.notes.append(text)

    def add_router(self, key: str, label: str, kind: str | None = None) -> Node:
        """A router more; its name is made of the label."""
        taken = {node.name for node in self.nodes.values()}
        node = Node(case_name(label, taken), kind or self.settings.kind)
        if node.name != label:
            self.note(f'router "{label}": named {node.name}')
        self.nodes[key] = node
        return node

    def add_prefix(self, key: str, address: int, length: int, cost: int) -> None:
        """A prefix more, if the router can have it; otherwise a note."""
        node, text = self.nodes[key], net_text(address, length)
        most_cost = limits.MAX_RIP_COST if node.kind == "rip" else limits.MAX_COST
        if node.kind == "flood":
            self.note(f"{node.name}: prefix {text}: a flooding router has none")
        elif has_host_bits(address, length):
            self.note(f"{node.name}: prefix {text}: bits past its length")
        elif any(held[:2] == (address, length) for held in node.prefixes):
            self.note(f"{node.name}: prefix {text}: stood before")
        elif len(node.prefixes) >= limits.MAX_PREFIXES:
            self.note(f"{node.name}: prefix {text}: a router has at most {limits.MAX_PREFIXES}")
        else:
            self.check_cost(f"{node.name}: prefix {text}", cost, most_cost)
            node.prefixes.append((address, length, clamp(cost, 1, most_cost)))

    def add_link(self, a: str, b: str, delay: int, cost: int) -> None:
        """A link more between two routers; a note if both are one."""
        what = self.link_name(a, b)
        if a == b:
            self.note(f"{what}: both ends at one router")
            return
        self.check_cost(what, cost, limits.MAX_COST)
        if not 1 <= delay <= limits.MAX_DELAY:
            self.note(f"{what}: delay {delay} is outside 1 to {limits.MAX_DELAY}; the nearest is taken")
        self.edges.append(Edge(a, b, clamp(delay, 1, limits.MAX_DELAY), clamp(cost, 1, limits.MAX_COST)))

    def link_name(self, a: str, b: str) -> str:
        """A link in a note."""
        return f"link {self.nodes[a].name} {self.nodes[b].name}"

    def keep_links(self) -> None:
        """Keeps the links that a case can have, in their order; the others are noted."""
        found, self.edges = self.edges, []
        for edge in found:
            full = [key for key in (edge.a, edge.b) if self.port_count(key) >= limits.MAX_PORTS]
            what = self.link_name(edge.a, edge.b)
            if full:
                self.note(f"{what}: {self.nodes[full[0]].name} has {limits.MAX_PORTS} ports already; not taken")
            elif len(self.edges) >= limits.MAX_LINKS:
                self.note(f"{what}: a case has at most {limits.MAX_LINKS} links; not taken")
            else:
                self.edges.append(edge)

    def check_cost(self, what: str, cost: int, most: int) -> None:
        """Notes a cost that is out of range."""
        if not 1 <= cost <= most:
            self.note(f"{what}: cost {cost} is outside 1 to {most}; the nearest is taken")

    def port_count(self, key: str) -> int:
        """How many ports a router has by the links so far."""
        return sum((edge.a == key) + (edge.b == key) for edge in self.edges)

    def give_networks(self) -> None:
        """A network 10.0.N.0/24 that nobody has for each router that routes and has none."""
        given, taken = [], {held[:2] for node in self.nodes.values() for held in node.prefixes}
        for number, node in enumerate(self.nodes.values()):
            if node.kind != "flood" and not node.prefixes:
                free = ((FIRST_NETWORK + (place << 8), 24) for place in (number, *range(256)))
                net = next(one for one in free if one not in taken)
                taken.add(net)
                node.prefixes.append((*net, 1))
                given.append(node.name)
        if given:
            self.note(f"{len(given)} routers without a network of their own got 10.0.N.0/24 (--no-networks leaves this "
                      "out)")

    def case(self) -> Case:
        """The case of the network, without its feed."""
        settings = self.settings
        case = Case(settings.period, settings.groups, settings.seed)
        numbers = {key: number for number, key in enumerate(self.nodes)}
        for node in self.nodes.values():
            case.routers.append(Router(node.name.encode(), node.kind.encode(), list(node.prefixes)))
        for edge in self.edges:
            case.add_link(numbers[edge.a], numbers[edge.b], edge.delay, edge.cost)
        return case


def clamp(number: int, least: int, greatest: int) -> int:
    """The nearest number in a range."""
    return max(least, min(greatest, number))


def case_name(label: str, taken: set[str]) -> str:
    """A name of 1 to 16 of a to z and 0 to 9, a letter first, that isn't taken."""
    plain = unicodedata.normalize("NFKD", label).encode("ascii", "ignore").decode().lower()
    plain = re.sub(r"[^a-z0-9]", "", plain)
    if not plain[:1].isalpha():
        plain = "r" + plain
    name, number = plain[:16], 1
    while name in taken:
        number += 1
        name = plain[:16 - len(str(number))] + str(number)
    return name


def nearest(network: Network, key: str) -> list[str]:
    """The routers in the order of their distances from one, by links, as many as a case has."""
    kept, place = [key], 0
    while place < len(kept) and len(kept) < limits.MAX_ROUTERS:
        here = kept[place]
        near = [edge.b if edge.a == here else edge.a for edge in network.edges if here in (edge.a, edge.b)]
        kept += [key for key in dict.fromkeys(near) if key not in kept]
        place += 1
    return kept[:limits.MAX_ROUTERS]


def keep_around(network: Network, name: str) -> None:
    """Keeps the routers nearest to one, by links, as many as a case has."""
    keys = [key for key, node in network.nodes.items() if node.name == name]
    if not keys:
        raise BadInput(f"--around {name}: no router has this name")
    kept = nearest(network, keys[0])
    for key, node in network.nodes.items():
        if key not in kept:
            network.note(f"{node.name}: left out (--around {name})")
    network.nodes = {key: node for key, node in network.nodes.items() if key in kept}
    network.edges = [edge for edge in network.edges if edge.a in kept and edge.b in kept]


def case_text(network: Network) -> bytes:
    """The case text of a network; raises `BadInput` if no case holds it."""
    if network.settings.around:
        keep_around(network, network.settings.around)
    if not network.nodes:
        raise BadInput("no routers in the input")
    if len(network.nodes) > limits.MAX_ROUTERS:
        raise BadInput(f"{len(network.nodes)} routers, and a case has at most {limits.MAX_ROUTERS}; "
                          "--around NAME keeps the nearest ones to a router")
    network.keep_links()
    if network.settings.networks:
        network.give_networks()
    case = network.case()
    case.feed = externals_of(case, network.feed)
    text = write_case(case)
    try:
        read_case(text)
    except Fault as fault:
        line = text.split(b"\n")[fault.line - 1].decode()
        raise BadInput(f'the case would be refused: {fault.cause} at "{line}"') from fault
    return text
