"""Case text both ways."""

from .case import Case, External, Router
from .causes import TABLE, address_of, causes_of
from .events import CMD, input_text
from .nets import net_text
from .shapes import NEXT, shape_of


class Fault(Exception):
    """A text that begins with no case: the first bad line, and its cause."""

    def __init__(self, line, causes):
        self.line, self.cause = line, min(causes, key=TABLE.index)
        super().__init__("line %d: %s" % (line, self.cause))


def add_line(case, shape):
    """Enters a line without a fault into the case."""
    kind, values = shape
    if kind in ("period", "groups", "seed"):
        setattr(case, kind, values[0])
    elif kind == "router":
        case.routers.append(Router(values[0], values[1]))
    elif kind == "link":
        a, b = case.router_number(values[0]), case.router_number(values[1])
        case.add_link(a, b, values[2], values[3])
    elif kind == "prefix":
        router = case.routers[case.router_number(values[0])]
        router.prefixes.append((address_of(values[1]), values[1][4], values[2]))
    elif kind == "external":
        case.feed.append(external_of(case, values))


def external_of(case, values):
    """The external that the values of an external line make."""
    group, name, kind, last = values
    entry = (CMD, 0, last) if kind == CMD else (kind, last, b"")
    return External(group, case.router_number(name), entry)


def line_at(text, start):
    """The line that begins at a place: its bytes, and whether it is ended."""
    stop = text.find(b"\n", start)
    return (text[start:], False) if stop < 0 else (text[start:stop], True)


def read_case(text):
    """The case and the length of its text; raises `Fault`."""
    case, before, place, number = Case(), None, 0, 1
    while True:
        if place == len(text):
            raise Fault(number, ["ended"])
        line, ended = line_at(text, place)
        shape = shape_of(line)
        if shape is None or shape[0] not in NEXT[before]:
            raise Fault(number, ["syntax"])
        causes = causes_of(case, shape) + ([] if ended else ["syntax"])
        if causes:
            raise Fault(number, causes)
        place += len(line) + 1
        if shape[0] == "end":
            return case, place
        add_line(case, shape)
        before, number = shape[0], number + 1


def write_case(case):
    """The one spelling of a case, prefix lines in the order of the routers."""
    lines = [b"defined 1", b"period %d" % case.period,
             b"groups %d" % case.groups, b"seed %d" % case.seed]
    lines += [b"router %s %s" % (r.name, r.kind) for r in case.routers]
    for link in case.links:
        names = (case.routers[link.a].name, case.routers[link.b].name)
        lines.append(b"link %s %s %d %d" % (names + (link.delay, link.cost)))
    for router in case.routers:
        lines += [prefix_line(router.name, prefix) for prefix in router.prefixes]
    lines.append(b"feed")
    lines += [external_line(case, external) for external in case.feed]
    return b"".join(line + b"\n" for line in lines + [b"end"])


def prefix_line(name, prefix):
    """The line of a prefix."""
    address, length, cost = prefix
    return b"prefix %s %s %d" % (name, net_text(address, length), cost)


def external_line(case, external):
    """The line of an external."""
    name = case.routers[external.router].name
    return b"@%d %s %s" % (external.group, name, input_text(external.entry))
