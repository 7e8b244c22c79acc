"""What the rows of a trace do to their routers: the model of `reference/` takes the rows one by one.

A trace has the routers' final states alone. What is between, and whether a router passed a row over, is computed
by the model, and compared with the final states of the trace where it has some (`differing_states`).
"""

from collections.abc import Iterator
from dataclasses import dataclass

from model.case import MAX_BODY
from model.events import CMD, MSG, TICK
from model.guests.flood import MAX_BODIES, Flood
from model.guests.ospf import wire as ospf_wire
from model.guests.ospf.guest import FULL, Ospf
from model.guests.ospf.lsa import MAX_AGE, ROUTER_LSA, Head, newer
from model.guests.ospf.receive import DISCARDED
from model.guests.rip import wire as rip_wire
from model.guests.rip.guest import Rip
from model.guests.routing import LAST_TICK, MAX_NETWORKS, WITHDRAW
from model.node import Node, opening_nodes
from model.octets import number as number_in

from .commands import command_fault, dotted
from .reading import Row, Run
from .routes import Route, routes_of

Guest = Flood | Ospf | Rip


@dataclass
class Taken:
    """A row, the node of its router after it, and why the router passed it over; None if it didn't."""

    row: Row
    node: Node
    passed_over: str | None


def taken_rows(run: Run) -> Iterator[Taken]:
    """Each row of a trace as its router takes it. The nodes go on changing; what is to be kept is copied."""
    nodes = opening_nodes(run.case)
    for row in run.rows:
        node = nodes[row.router]
        reason = reason_before(run, node, row)
        node.step(row.event[2])
        yield Taken(row, node, reason or reason_after(node.guest, row))


def differing_states(run: Run, nodes: dict[int, Node]) -> list[int]:
    """The routers whose final state in the trace isn't the one that the model came to."""
    return [state.router for state in run.states
            if (state.sends, state.mask, state.image) != final_state(nodes.get(state.router))]


def final_state(node: Node | None) -> tuple[int, int, bytes] | None:
    """The parts of a node's state line."""
    return None if node is None else (node.sends, node.mask, node.guest.image())


# -- what is passed over


def reason_before(run: Run, node: Node, row: Row) -> str | None:
    """Why a router in its present state passes a row over, or None if that isn't told by its state alone."""
    if row.input == MSG and not node.is_up(row.port):
        return "port %d is down" % row.port
    guest = node.guest
    if isinstance(guest, Flood):
        return flood_reason(guest, row)
    if row.input == TICK:
        return None if guest.now <= row.group <= LAST_TICK else "ticks past %d do nothing" % LAST_TICK
    if row.input == CMD:
        return command_reason(guest, row.body)
    if row.input != MSG:
        return None
    return ospf_reason(guest, row) if isinstance(guest, Ospf) else rip_reason(row.body)


def reason_after(guest: Guest, row: Row) -> str | None:
    """Why an OSPF router discarded each LSA of the Update that it has just taken, or None."""
    if not isinstance(guest, Ospf) or row.input != MSG or not is_update(row.body):
        return None
    if not guest.judged:
        return "there is no LSA in it"
    if any(verdict != DISCARDED for _, verdict, _ in guest.judged):
        return None
    reasons = list(dict.fromkeys(reason for _, _, reason in guest.judged))
    return "; ".join(reasons)


def is_update(body: bytes) -> bool:
    """Whether the bytes begin as an Update does."""
    return body[1:2] == bytes([ospf_wire.UPDATE])


def flood_reason(guest: Flood, row: Row) -> str | None:
    """Why a flooding router passes a message or command over."""
    if row.input not in (CMD, MSG):
        return None
    if not 1 <= len(row.body) <= MAX_BODY:
        return "it floods 1 to %d bytes, and these are %d" % (MAX_BODY, len(row.body))
    if row.body in guest.bodies:
        return "it has these bytes already"
    return "it holds %d bodies" % MAX_BODIES if len(guest.bodies) >= MAX_BODIES else None


def command_reason(guest: Ospf | Rip, body: bytes) -> str | None:
    """Why an OSPF or RIP router passes a command over."""
    fault = command_fault(body)
    if fault is not None:
        return "no command: " + fault
    network = number_in(body, 1, 4), body[5]
    own = own_networks(guest)
    if body[0] == WITHDRAW:
        return None if network in own else "it has no such network of its own"
    cost = number_in(body, 6, 2)
    if isinstance(guest, Rip) and not 1 <= cost < rip_wire.INFINITY:
        return "a metric is from 1 to %d, and this is %d" % (rip_wire.INFINITY - 1, cost)
    if cost == 0:
        return "its cost is 0"
    return "it has %d networks already" % MAX_NETWORKS if network not in own and len(own) >= MAX_NETWORKS else None


def own_networks(guest: Ospf | Rip) -> set[tuple[int, int]]:
    """The router's own networks; of a RIP router those that can be reached."""
    if isinstance(guest, Ospf):
        return set(guest.networks)
    return {network for network, held in guest.table.items() if held.via is None and held.metric < rip_wire.INFINITY}


def ospf_reason(guest: Ospf, row: Row) -> str | None:
    """Why an OSPF router passes a message over, but for the LSAs of an Update."""
    packet = ospf_wire.decode(row.body)
    if packet is None:
        return "no OSPF packet: " + ospf_wire.fault(row.body)
    if packet.area != 0:
        return "it is of area %s" % dotted(packet.area)
    if packet.kind == ospf_wire.HELLO:
        return guest.hello_fault(packet.router, packet.body)
    neighbour = guest.ports[row.port]
    if neighbour.state != FULL:
        return "the port has no full neighbour"
    if neighbour.id != packet.router:
        return "it is from %s, and the neighbour is %s" % (dotted(packet.router), dotted(neighbour.id))
    if packet.kind == ospf_wire.ACK and not any(is_awaited(guest, row.port, head) for head in packet.body):
        return "it acknowledges nothing that is on the port's list"
    return None


def is_awaited(guest: Ospf, port: int, head: Head) -> bool:
    """Whether a header acknowledges an LSA that is on a port's list (13.7)."""
    key = head.key()
    return (key in guest.ports[port].list and guest.database.get(key) is not None
            and newer(head, guest.database.head_now(key, guest.now)) == 0)


def rip_reason(body: bytes) -> str | None:
    """Why a RIP router passes a message over."""
    decoded = rip_wire.decode(body)
    if decoded is None:
        return "no RIP message: " + rip_wire.fault(body)
    command, entries = decoded
    if entries[0].family == rip_wire.AUTHENTICATION:
        return "it has authentication"
    if command == rip_wire.RESPONSE and not any(entry.is_of_interest() for entry in entries):
        return "none of its entries is looked at"
    return None


# -- routes


class RouteWatch:
    """Tells at which rows a router's routes change; the routes are computed only if what they come from has changed."""

    def __init__(self, run: Run):
        nodes = opening_nodes(run.case)
        self.sources = [source_of(node.guest) for node in nodes]
        self.routes = [by_network(node.guest) for node in nodes]

    def changes(self, taken: Taken) -> list[tuple[Route | None, Route | None]]:
        """The routes that a row has changed at its router: (before, after), None where there is none."""
        router, guest = taken.row.router, taken.node.guest
        source = source_of(guest)
        if source == self.sources[router]:
            return []
        self.sources[router] = source
        before, after = self.routes[router], by_network(guest)
        self.routes[router] = after
        return [(before.get(network), after.get(network)) for network in sorted({*before, *after})
                if before.get(network) != after.get(network)]


def by_network(guest: Guest) -> dict[tuple[int, int], Route]:
    """A router's routes by network."""
    return {(route.address, route.length): route for route in routes_of(guest)}


def source_of(guest: Guest) -> object:
    """All that a router's routes are computed from: two equal sources have the same routes."""
    if isinstance(guest, Ospf):
        return {key: kept.lsa.body for key, kept in guest.database.map.items()
                if kept.lsa.head.age < MAX_AGE and key[0] == ROUTER_LSA and key[1] == key[2]}
    if isinstance(guest, Rip):
        return {network: (held.metric, held.via) for network, held in guest.table.items()}
    return None
