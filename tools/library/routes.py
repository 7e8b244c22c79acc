"""A router's routes, of its state: an OSPF routing table by RFC 2328, section 16.1, a RIP table, or flooded bodies.

The rules are those of docs/OSPF.md ("Routes") and docs/RIP.md.
"""

import heapq
from dataclasses import dataclass

from model.guests.flood import Flood
from model.guests.ospf.guest import Ospf
from model.guests.ospf.lsa import MAX_AGE, POINT_TO_POINT, ROUTER_LSA, STUB, links_of
from model.guests.rip.guest import Rip
from model.nets import length_of, mask_of

from .commands import net
from .network import Network

MOST_PORTS = 16


@dataclass(frozen=True)
class Route:
    """A network, its cost or metric, whether it is the router's own, and the ports that lead to it."""

    address: int
    length: int
    cost: int
    is_own: bool
    ports: tuple[int, ...]


@dataclass(frozen=True)
class Reached:
    """A router of a shortest-path tree: its cost, the first ports of its shortest ways, who is before it on them."""

    cost: int
    ports: frozenset[int]
    parents: frozenset[int]


Links = list[tuple[int, int, int, int]]
Tree = dict[int, Reached]


def routes_of(guest: Flood | Ospf | Rip) -> list[Route]:
    """The routes of a router in ascending order of their networks; of a flooding router none."""
    if isinstance(guest, Ospf):
        return ospf_routes(guest)
    return rip_routes(guest) if isinstance(guest, Rip) else []


def rip_routes(guest: Rip) -> list[Route]:
    """The table of a RIP router; a route of metric 16 is in it too."""
    return [Route(address, length, held.metric, held.via is None, () if held.via is None else (held.via,))
            for (address, length), held in guest.routes()]


def vertices(guest: Ospf) -> dict[int, Links]:
    """The links of each router-LSA that takes part in the calculation, by router id."""
    found: dict[int, Links] = {}
    for (kind, link_state_id, router), kept in guest.database.map.items():
        is_young = guest.database.age((kind, link_state_id, router), guest.now) < MAX_AGE
        links = links_of(kept.lsa.body) if kind == ROUTER_LSA and link_state_id == router and is_young else None
        if links is not None:
            found[router] = links
    return found


def edges_of(links: Links) -> list[tuple[int, int, int]]:
    """The point-to-point links of a metric above 0: (far router, data, metric)."""
    return [(far, data, metric) for kind, far, data, metric in links if kind == POINT_TO_POINT and metric > 0]


def tree_of(graph: dict[int, Links], root: int) -> Tree:
    """The shortest-path tree of a root over links that both ends have (16.1 step 2)."""
    if root not in graph:
        return {}
    linked = {(here, far) for here, links in graph.items() for far, _, _ in edges_of(links)}
    tree, waiting = {}, [(0, root)]
    best = {root: Reached(0, frozenset(), frozenset())}
    while waiting:
        cost, here = heapq.heappop(waiting)
        if here in tree or cost > best[here].cost:
            continue
        tree[here] = best[here]
        for far, data, metric in edges_of(graph[here]):
            if far in graph and (far, here) in linked and far not in tree:
                ports = first_ports(data) if here == root else best[here].ports
                if offer(best, far, Reached(cost + metric, ports, frozenset((here,)))):
                    heapq.heappush(waiting, (cost + metric, far))
    return tree


def first_ports(data: int) -> frozenset[int]:
    """The port that the data of one of the root's own links tells."""
    return frozenset((data - 1,)) if 1 <= data <= MOST_PORTS else frozenset()


def offer(best: Tree, far: int, way: Reached) -> bool:
    """Takes a way to a router: in place of a dearer one, or beside one of the same cost. Whether it is cheaper."""
    known = best.get(far)
    if known is not None and known.cost < way.cost:
        return False
    if known is not None and known.cost == way.cost:
        best[far] = Reached(way.cost, known.ports | way.ports, known.parents | way.parents)
        return False
    best[far] = way
    return True


def ospf_routes(guest: Ospf) -> list[Route]:
    """The routing table of an OSPF router at its last tick."""
    graph = vertices(guest)
    best: dict[tuple[int, int], tuple[int, bool, frozenset[int]]] = {}
    for router, reached in tree_of(graph, guest.id).items():
        for kind, address, data, metric in graph[router]:
            length = length_of(data) if kind == STUB else None
            if length is not None:
                way = (reached.cost + metric, router == guest.id, reached.ports)
                take_way(best, (address & mask_of(length), length), way)
    return [Route(address, length, cost, own, tuple(sorted(ports)))
            for (address, length), (cost, own, ports) in sorted(best.items())]


def take_way(best: dict, network: tuple[int, int], way: tuple[int, bool, frozenset[int]]) -> None:
    """Takes a way to a network: in place of a dearer one, or beside one of the same cost."""
    known = best.get(network)
    if known is None or way[0] < known[0]:
        best[network] = way
    elif way[0] == known[0]:
        best[network] = (way[0], known[1] or way[1], known[2] | way[2])


def route_words(network: Network, router: int, route: Route) -> str:
    """`10.0.6.0/24 cost 21 via b, d`, and `own` for a network of the router itself."""
    kind = "metric" if network.kinds[router] == "rip" else "cost"
    where = (["own"] if route.is_own else []) + [f"{network.neighbour(router, port)}" for port in route.ports]
    return f"{net(route.address, route.length)} {kind} {route.cost} via {', '.join(where) or 'nothing'}"


def holdings_words(network: Network, router: int, guest: Flood | Ospf | Rip) -> list[str]:
    """What a router ends with: its routes, or the bodies that a flooding router holds."""
    if isinstance(guest, Flood):
        return ["holds " + body.hex() for body in sorted(guest.bodies)]
    return [route_words(network, router, route) for route in routes_of(guest)]
