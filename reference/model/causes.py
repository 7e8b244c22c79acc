"""Why a line of a case text is bad. Several causes may hold for one line; the first of `TABLE` is told."""

from . import case as limits
from .events import CMD
from .nets import has_host_bits
from .numbers import U64_MAX

TABLE = ("ended", "syntax", "version", "range", "name", "same", "twice",
         "kind", "host", "many", "order", "port")


def outside(number, least, greatest):
    """The cause Range where the number is outside, else nothing."""
    return [] if least <= number <= greatest else ["range"]


def causes_of(case, shape):
    """Every cause from Version on that holds for a line of this shape."""
    kind, values = shape
    if kind == "defined":
        return [] if values[0] == 1 else ["version"]
    if kind == "period":
        return outside(values[0], 1, limits.MAX_PERIOD)
    if kind == "groups":
        return outside(values[0], 1, limits.MAX_GROUPS)
    if kind == "seed":
        return outside(values[0], 0, U64_MAX)
    if kind == "router":
        return router_causes(case, values)
    if kind == "link":
        return link_causes(case, values)
    if kind == "prefix":
        return prefix_causes(case, values)
    if kind == "external":
        return external_causes(case, values)
    return []


def router_causes(case, values):
    """Causes of a router line."""
    found = []
    if case.router_number(values[0]) is not None:
        found.append("twice")
    if len(case.routers) >= limits.MAX_ROUTERS:
        found.append("many")
    return found


def link_causes(case, values):
    """Causes of a link line."""
    a_name, b_name, delay, cost = values
    found = outside(delay, 1, limits.MAX_DELAY) + outside(cost, 1, limits.MAX_COST)
    ends = [case.router_number(a_name), case.router_number(b_name)]
    if None in ends:
        found.append("name")
    if a_name == b_name:
        found.append("same")
    full = [end for end in ends
            if end is not None and case.port_count(end) >= limits.MAX_PORTS]
    if full or len(case.links) >= limits.MAX_LINKS:
        found.append("many")
    return found


def prefix_causes(case, values):
    """Causes of a prefix line."""
    name, net, cost = values
    place = case.router_number(name)
    router = None if place is None else case.routers[place]
    in_range = all(byte <= 255 for byte in net[:4]) and net[4] <= 32
    found = [] if in_range else ["range"]
    found += outside(cost, 1, limits.MAX_COST)
    if in_range and has_host_bits(address_of(net), net[4]):
        found.append("host")
    if router is None:
        return found + ["name"]
    if router.kind == b"rip" and cost > limits.MAX_RIP_COST:
        found.append("range")
    if router.kind == b"flood":
        found.append("kind")
    if in_range and any(held[:2] == (address_of(net), net[4]) for held in router.prefixes):
        found.append("twice")
    if len(router.prefixes) >= limits.MAX_PREFIXES:
        found.append("many")
    return found


def external_causes(case, values):
    """Causes of an external line of the feed."""
    found = external_causes_of_step(case, values)
    if case.feed and values[0] < case.feed[-1].group:
        found.append("order")
    return found


def external_causes_of_step(case, values):
    """Causes of the fields of an inject step, where Order can't come."""
    group, name, kind, last = values
    found = [] if group < case.groups else ["range"]
    router = case.router_number(name)
    if router is None:
        found.append("name")
    if kind == CMD:
        return found + outside(len(last), 1, limits.MAX_BODY)
    if last > limits.MAX_PORT:
        found.append("range")
    if router is not None and last >= case.port_count(router):
        found.append("port")
    return found


def address_of(net):
    """The address of the four bytes."""
    return int.from_bytes(bytes(net[:4]), "big")
