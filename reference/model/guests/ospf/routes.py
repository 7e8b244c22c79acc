"""The routes of an OSPF router: the least walks through its database (16.1)."""

from ...case import MAX_PORTS
from ...nets import length_of, mask_of
from .lsa import MAX_AGE, POINT_TO_POINT, ROUTER_LSA, STUB, links_of


def vertices(router):
    """The links of each router whose LSA counts, by its id."""
    found = {}
    for key, kept in router.database.map.items():
        kind, link_state_id, advertising = key
        if kind == ROUTER_LSA and link_state_id == advertising and router.database.age(key, router.now) < MAX_AGE:
            links = links_of(kept.lsa.body)
            if links is not None:
                found[advertising] = links
    return found


def edges_of(links_by_id):
    """(from, to, metric, data) of each point-to-point link that the far router has too, both of metric above 0."""
    ways = {(one, far) for one, links in links_by_id.items()
            for kind, far, _, metric in links if kind == POINT_TO_POINT and metric > 0}
    return [(one, far, metric, data) for one, links in links_by_id.items()
            for kind, far, data, metric in links
            if kind == POINT_TO_POINT and metric > 0 and (far, one) in ways]


def least_costs(root, edges):
    """The cost of the least walk from the root to each router that it reaches."""
    costs, is_changed = {root: 0}, True
    while is_changed:
        is_changed = False
        for one, far, metric, _ in edges:
            if one in costs and costs[one] + metric < costs.get(far, costs[one] + metric + 1):
                costs[far], is_changed = costs[one] + metric, True
    return costs


def first_ports(root, edges, costs):
    """By router: the ports by whose links the least walks from the root to it begin."""
    ports = {one: set() for one in costs}
    for vertex in sorted(costs, key=costs.get):
        for one, far, metric, data in edges:
            if far == vertex != root and one in costs and costs[one] + metric == costs[far]:
                ports[far] |= ({data - 1} & set(range(MAX_PORTS))) if one == root else ports[one]
    return ports


def routes(router):
    """(cost, whether it is the router's own, ports) by (address, length)."""
    links_by_id, found = vertices(router), {}
    if router.id not in links_by_id:
        return found
    edges = edges_of(links_by_id)
    costs = least_costs(router.id, edges)
    ports = first_ports(router.id, edges, costs)
    for vertex, cost in costs.items():
        for kind, address, mask, metric in links_by_id[vertex]:
            if kind == STUB and length_of(mask) is not None:
                network = (address & mask_of(length_of(mask)), length_of(mask))
                add_way(found, network, cost + metric, vertex == router.id, ports[vertex])
    return found


def add_way(found, network, cost, is_own, ports):
    """One more way to a network; of several the least costs stay, side by side."""
    best, own, held = found.get(network, (cost, False, set()))
    if cost < best:
        best, own, held = cost, False, set()
    if cost == best:
        found[network] = (cost, own or is_own, held | ports)
