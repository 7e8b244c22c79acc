"""The first bad line of a case in words: what is wrong with it, and what could be there."""

import difflib
from dataclasses import dataclass, field

from model import case as limits
from model.case import Case
from model.casetext import add_line, line_at
from model.causes import TABLE, address_of, causes_of
from model.events import CMD
from model.nets import mask_of
from model.numbers import U64_MAX
from model.shapes import NEXT, shape_of

from .spelling import (counted, hex_fault, kind_fault, name_fault, net_fault, number_fault, oddities, quoted, repaired)

MOST_NAMES = 12
FORMS = {"defined": "defined 1", "period": "period N", "groups": "groups N", "seed": "seed N",
         "router": "router NAME KIND", "link": "link NAME NAME DELAY COST", "prefix": "prefix NAME A.B.C.D/LEN COST",
         "feed": "feed", "external": "@GROUP NAME cmd HEX (or down PORT, or up PORT)", "end": "end"}
PLACES = {"defined": "the first line", "period": "the second line", "groups": "the line after period",
          "seed": "the line after groups", "router": "after the line seed and before all links, prefixes and feed",
          "link": "after the routers and before all prefixes and feed",
          "prefix": "after the routers and links and before feed", "feed": "once, after routers, links and prefixes",
          "external": "between feed and end", "end": "after the feed; a case ends there"}
FIELDS = {"defined": (number_fault,), "period": (number_fault,), "groups": (number_fault,), "seed": (number_fault,),
          "router": (name_fault, kind_fault), "link": (name_fault, name_fault, number_fault, number_fault),
          "prefix": (name_fault, net_fault, number_fault), "feed": (), "end": ()}


@dataclass
class BadLine:
    """The first bad line of a text that begins with no case, and what comes before it.

    `kinds` are the kinds of the lines before; `shape` is the line's as `model.shapes` has it, or None.
    """

    number: int
    cause: str
    line: bytes
    is_ended: bool
    shape: tuple | None
    case: Case
    kinds: list[str] = field(default_factory=list)

    @property
    def before(self) -> str | None:
        """The kind of the line before."""
        return self.kinds[-1] if self.kinds else None

    def line_of(self, kind: str, place: int = 0) -> int:
        """The line of the first line of a kind, or of a later one, from 1."""
        return [number for number, found in enumerate(self.kinds, 1) if found == kind][place]


def bad_line(data: bytes) -> BadLine | None:
    """The first bad line of a text, or None if it begins with a case."""
    case, kinds, place = Case(), [], 0
    while True:
        number, before = len(kinds) + 1, kinds[-1] if kinds else None
        if place == len(data):
            return BadLine(number, "ended", b"", False, None, case, kinds)
        line, ended = line_at(data, place)
        shape = shape_of(line)
        is_next = shape is not None and shape[0] in NEXT[before]
        causes = ["syntax"] if not is_next or not ended else []
        causes += causes_of(case, shape) if is_next else []
        if causes:
            return BadLine(number, min(causes, key=TABLE.index), line, ended, shape, case, kinds)
        if shape[0] == "end":
            return None
        add_line(case, shape)
        kinds.append(shape[0])
        place += len(line) + 1


def wanted(bad: BadLine) -> str:
    """The lines that may be there."""
    forms = ['"%s"' % FORMS[kind] for kind in NEXT[bad.before]]
    return forms[0] if len(forms) == 1 else ", ".join(forms[:-1]) + " or " + forms[-1]


def case_fault_words(bad: BadLine) -> list[str]:
    """The fault in words, the most telling line first."""
    if bad.cause == "ended":
        return ["line %d: the text ends here, and the case doesn't: expected %s" % (bad.number, wanted(bad))]
    if bad.cause == "syntax":
        return syntax_words(bad)
    words = {"version": version_words, "range": range_words, "name": name_words, "same": same_words,
             "twice": twice_words, "kind": kind_words, "host": host_words, "many": many_words, "order": order_words,
             "port": port_words}[bad.cause](bad)
    return ["line %d: %s" % (bad.number, quoted(bad.line)), *words]


# -- spelling and place


def syntax_words(bad: BadLine) -> list[str]:
    """A line that may not be at its place, or isn't spelled as one."""
    lines = ["line %d: expected %s, found %s" % (bad.number, wanted(bad), quoted(bad.line))]
    told = oddities(bad.line, bad.number)
    lines += told
    if not bad.is_ended:
        lines.append("it is the last line and has no newline at its end")
    if bad.shape is not None and bad.shape[0] not in NEXT[bad.before]:
        return lines + place_words(bad)
    if bad.shape is None:
        line = repaired(bad.line) if told else bad.line
        shape = shape_of(line)
        if shape is None:
            lines += field_words(line)
        elif shape[0] not in NEXT[bad.before]:
            lines += place_words(BadLine(bad.number, "syntax", line, bad.is_ended, shape, bad.case, bad.kinds))
        else:
            lines.append("it is right so: %s" % quoted(line))
    return lines


def place_words(bad: BadLine) -> list[str]:
    """A right line at the wrong place: where it may stand."""
    kind = bad.shape[0]
    words = "it is a right line at the wrong place: %s comes %s" % (
        "an external" if kind == "external" else "\"%s\"" % FORMS[kind], PLACES[kind])
    later = [other for other in ("link", "prefix", "feed") if other in bad.kinds]
    if kind in ("router", "link", "prefix") and later:
        blocking = [other for other in later if other != kind and kind not in NEXT[other]]
        if blocking:
            number = bad.line_of(blocking[0])
            return [words, "move it up, above line %d (the first line \"%s\")" % (number, FORMS[blocking[0]])]
    if kind in bad.kinds and kind not in NEXT[kind]:
        return [words, "line %d is one already" % bad.line_of(kind)]
    return [words]


def field_words(line: bytes) -> list[str]:
    """Why a line has no shape, by its fields."""
    if not line:
        return ["the line is empty; a case has no empty lines"]
    if line.startswith((b"#", b"//", b";")):
        return ["a case has no comments"]
    fields = line.split(b" ")
    if fields[0][:1] == b"@":
        return external_field_words(fields)
    word = fields[0].decode("ascii", "replace")
    if word not in FIELDS:
        close = difflib.get_close_matches(word, FIELDS, 1)
        return ["no line begins with %s%s" % (quoted(fields[0]), "; %s is meant?" % FORMS[close[0]] if close else "")]
    checks = FIELDS[word]
    if len(fields) - 1 != len(checks):
        return ['it has %s, and "%s" has %d' % (counted(len(fields), "field", "fields"), FORMS[word], len(checks) + 1)]
    return [fault for check, found in zip(checks, fields[1:]) if (fault := check(found))]


def external_field_words(fields: list[bytes]) -> list[str]:
    """Why a line that begins with @ is no external."""
    group = number_fault(fields[0][1:])
    if group:
        return ["the group after @: " + group]
    if len(fields) != 4:
        return ["it has %s, and an external has 4: @GROUP NAME cmd HEX, @GROUP NAME down PORT or @GROUP NAME up PORT"
                % counted(len(fields), "field", "fields")]
    faults = [name_fault(fields[1])]
    if fields[2] == b"cmd":
        faults.append(hex_fault(fields[3]))
    elif fields[2] in (b"down", b"up"):
        faults.append(number_fault(fields[3]))
    else:
        faults.append("%s is none of cmd, down and up" % quoted(fields[2]))
    return [fault for fault in faults if fault]


# -- the causes of lines that have a shape


def version_words(bad: BadLine) -> list[str]:
    """Another version."""
    return ["this program reads version 1 alone: defined 1"]


def outside(name: str, value: int, least: int, greatest: int) -> list[str]:
    """A number with its bounds if it is outside of them."""
    if least <= value <= greatest:
        return []
    return ["the %s is %s, and it is from %s to %s" % (name, short(value), format(least, ","), format(greatest, ","))]


def short(value: int) -> str:
    """A number, or how great it is."""
    return "above 64 bits" if value > U64_MAX else format(value, ",")


def range_words(bad: BadLine) -> list[str]:
    """Each number of the line that is outside its range."""
    kind, values = bad.shape
    if kind in ("period", "groups", "seed"):
        greatest = {"period": limits.MAX_PERIOD, "groups": limits.MAX_GROUPS, "seed": U64_MAX}[kind]
        name = {"period": "period", "groups": "number of groups", "seed": "seed"}[kind]
        return outside(name, values[0], 0 if kind == "seed" else 1, greatest)
    if kind == "link":
        return outside("delay", values[2], 1, limits.MAX_DELAY) + outside("cost", values[3], 1, limits.MAX_COST)
    return prefix_range(bad, values) if kind == "prefix" else external_range(bad.case, values)


def prefix_range(bad: BadLine, values: tuple) -> list[str]:
    """Of a prefix line."""
    name, net, cost = values
    found = [words for part in net[:4] for words in outside("byte of the address", part, 0, 255)]
    found += outside("length", net[4], 0, 32)
    place = bad.case.router_number(name)
    is_rip = place is not None and bad.case.routers[place].kind == b"rip"
    greatest = limits.MAX_RIP_COST if is_rip else limits.MAX_COST
    return found + outside("metric at a RIP router" if is_rip else "cost", cost, 1, greatest)


def external_range(case: Case, values: tuple) -> list[str]:
    """Of an external, in the feed or in an inject step."""
    group, _, kind, last = values
    found = outside("group", group, 0, case.groups - 1)
    if found:
        found.append("the case has %d groups, from 0" % case.groups)
    if kind == CMD:
        return found + outside("number of bytes of the command", len(last), 1, limits.MAX_BODY)
    return found + outside("port", last, 0, limits.MAX_PORT)


def unknown_words(case: Case, name: bytes) -> list[str]:
    """A name that no router has."""
    names = [router.name.decode() for router in case.routers]
    if name.decode() in names:
        return []
    close = difflib.get_close_matches(name.decode(), names, 1)
    some = ", ".join(names[:MOST_NAMES] + ["..."] * (len(names) > MOST_NAMES))
    told = "; %s is meant?" % close[0] if close else "; there are %s" % some
    return ["no router is called %s%s" % (name.decode(), told)]


def name_words(bad: BadLine) -> list[str]:
    """A router's name that isn't known."""
    kind, values = bad.shape
    names = {"link": values[:2], "prefix": values[:1], "external": values[1:2]}[kind]
    return [words for name in dict.fromkeys(names) for words in unknown_words(bad.case, name)]


def same_words(bad: BadLine) -> list[str]:
    """A link of a router with itself."""
    return ["both ends of the link are %s; a link is between two routers" % bad.shape[1][0].decode()]


def twice_words(bad: BadLine) -> list[str]:
    """A router or a prefix that stood before."""
    kind, values = bad.shape
    if kind == "router":
        number = bad.line_of("router", bad.case.router_number(values[0]))
        return ["line %d has a router of this name already" % number]
    return ["router %s has the network %s already" % (values[0].decode(), net_words(values[1]))]


def net_words(net: tuple) -> str:
    """A network of five numbers."""
    return "%d.%d.%d.%d/%d" % net


def kind_words(bad: BadLine) -> list[str]:
    """A prefix at a flooding router."""
    return ["%s is a flooding router (line %d), and only ospf and rip routers have prefixes" % (
        bad.shape[1][0].decode(), bad.line_of("router", bad.case.router_number(bad.shape[1][0])))]


def host_words(bad: BadLine) -> list[str]:
    """Bits past the length."""
    net = bad.shape[1][1]
    masked = (address_of(net) & mask_of(net[4])).to_bytes(4, "big")
    return ["the address has bits past its length of %d; the network is %d.%d.%d.%d/%d" % (net[4], *masked, net[4])]


def many_words(bad: BadLine) -> list[str]:
    """One too many."""
    kind, values = bad.shape
    if kind == "router":
        return ["a case has at most %d routers" % limits.MAX_ROUTERS]
    if kind == "prefix":
        return ["router %s has %d prefixes already, and that is the most" % (values[0].decode(), limits.MAX_PREFIXES)]
    full = [name.decode() for name in values[:2]
            if bad.case.port_count(bad.case.router_number(name)) >= limits.MAX_PORTS]
    if full:
        return ["router %s has %d ports already, and that is the most" % (full[0], limits.MAX_PORTS)]
    return ["a case has at most %d links" % limits.MAX_LINKS]


def order_words(bad: BadLine) -> list[str]:
    """A group below that of the external before."""
    group = bad.shape[1][0]
    last = bad.case.feed[-1].group
    first = next(place for place, external in enumerate(bad.case.feed) if external.group > group)
    return ["its group is %d, and the line before is of group %d; groups don't fall" % (group, last),
            "move it up, above line %d" % bad.line_of("external", first)]


def port_words(bad: BadLine) -> list[str]:
    """A port that the router hasn't."""
    return port_fault(bad.case, *bad.shape[1][1:4:2])


def port_fault(case: Case, name: bytes, port: int) -> list[str]:
    """A port that a router hasn't."""
    count = case.port_count(case.router_number(name))
    has = {0: "no ports, as no link names it", 1: "the port 0"}.get(count, "the ports 0 to %d" % (count - 1))
    return ["router %s has no port %d; it has %s, in the order of its links" % (name.decode(), port, has)]
