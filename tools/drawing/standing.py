"""How a case's network stands at a group: which ports are down, and the shortest-path tree of a router."""

import heapq
from dataclasses import dataclass

from model.case import Case
from model.events import DOWN, UP

Port = tuple[int, int]


@dataclass(frozen=True)
class Tree:
    """A shortest-path tree: each router's cost, and the numbers of the links that are on a shortest way."""

    root: int
    costs: dict[int, int]
    links: frozenset[int]


def down_ports(case: Case, group: int) -> set[Port]:
    """The (router, port) pairs that are down after the externals of the groups up to this one."""
    down: set[Port] = set()
    for external in case.feed:
        kind, port, _ = external.entry
        if external.group <= group and kind == DOWN:
            down.add((external.router, port))
        elif external.group <= group and kind == UP:
            down.discard((external.router, port))
    return down


def is_up(link, down: set[Port]) -> bool:
    """Whether both ends of a link are up."""
    return (link.a, link.a_port) not in down and (link.b, link.b_port) not in down


def tree_of(case: Case, root: int, down: set[Port]) -> Tree:
    """The shortest-path tree by the links' costs, over the links of which both ends are up.

    It is the tree that the routers ought to come to, and no router's view; all ways of equal cost are in it.
    """
    costs: dict[int, int] = {}
    waiting = [(0, root)]
    links = [link for link in case.links if is_up(link, down)]
    while waiting:
        cost, here = heapq.heappop(waiting)
        if here in costs:
            continue
        costs[here] = cost
        for link in links:
            if here in (link.a, link.b):
                far = link.b if link.a == here else link.a
                heapq.heappush(waiting, (cost + link.cost, far))
    return Tree(root, costs, frozenset(number for number, link in enumerate(case.links)
                                       if is_up(link, down) and is_on_a_way(link, costs)))


def is_on_a_way(link, costs: dict[int, int]) -> bool:
    """Whether a link is on a shortest way from the root."""
    if link.a not in costs or link.b not in costs:
        return False
    return abs(costs[link.a] - costs[link.b]) == link.cost
