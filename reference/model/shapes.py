"""The shapes of the lines of a case text: words, the number of fields and their spelling."""

from . import case as limits
from .events import CMD, DOWN, UP
from .numbers import decimal, is_name, unhex

# Which kinds of line may stand next, by the kind of the line before.
NEXT = {
    None: ("defined",),
    "defined": ("period",),
    "period": ("groups",),
    "groups": ("seed",),
    "seed": ("router",),
    "router": ("router", "link", "prefix", "feed"),
    "link": ("link", "prefix", "feed"),
    "prefix": ("prefix", "feed"),
    "feed": ("external", "end"),
    "external": ("external", "end"),
}


def shape_of(line):
    """The kind of line and its fields as values, or None for no shape.

    Judged by the words, the number of fields and their spelling alone.
    """
    fields = line.split(b" ")
    word = fields[0]
    if word in (b"feed", b"end") and len(fields) == 1:
        return (word.decode(), ())
    if word in (b"defined", b"period", b"groups", b"seed") and len(fields) == 2:
        return with_values(word.decode(), [decimal(fields[1])])
    if word == b"router" and len(fields) == 3:
        kind = fields[2] if fields[2] in limits.KINDS else None
        return with_values("router", [name_of(fields[1]), kind])
    if word == b"link" and len(fields) == 5:
        return with_values("link", [name_of(fields[1]), name_of(fields[2]),
                                    decimal(fields[3]), decimal(fields[4])])
    if word == b"prefix" and len(fields) == 4:
        return with_values("prefix", [name_of(fields[1]), net_of(fields[2]),
                                      decimal(fields[3])])
    if word[:1] == b"@":
        return external_shape(word[1:], fields[1:])
    return None


def with_values(kind, values):
    """The shape with these values, or None where one of them is missing."""
    return None if None in values else (kind, tuple(values))


def name_of(field):
    """The field where it is a name, else None."""
    return field if is_name(field) else None


def net_of(field):
    """The five numbers of `A.B.C.D/LEN`, or None."""
    halves = field.split(b"/")
    if len(halves) != 2:
        return None
    parts = halves[0].split(b".")
    if len(parts) != 4:
        return None
    numbers = [decimal(part) for part in parts] + [decimal(halves[1])]
    return None if None in numbers else tuple(numbers)


def external_shape(group, rest):
    """The shape of an external: its group field and the fields after it."""
    live = live_shape(rest)
    if live is None or decimal(group) is None:
        return None
    return ("external", (decimal(group),) + live)


def live_shape(fields):
    """(name, kind of input, port or body) of the fields `NAME INPUT`, or None."""
    if len(fields) != 3 or not is_name(fields[0]):
        return None
    name, word, last = fields
    if word == b"cmd":
        body = unhex(last)
        return None if body is None else (name, CMD, body)
    if word in (b"down", b"up"):
        port = decimal(last)
        return None if port is None else (name, DOWN if word == b"down" else UP, port)
    return None
