"""How the debugger's commands are spelled.

A command is a tuple: its word, and what its fields mean. A break is `("at", group, sum)`, `("router", router)`,
`("port", router, port)` or `("body", bytes)`.
"""

from .case import MAX_PORT
from .events import CMD, MSG
from .lockstep import ROW_LIMIT
from .numbers import decimal, unhex

GREATEST = 4_294_967_295
ALONE = (b"run", b"where", b"last", b"quit")


def number_of(field, least=0, greatest=GREATEST):
    """The number of a field, or None where it is none or out of range."""
    number = decimal(field)
    return number if number is not None and least <= number <= greatest else None


def whole(*command):
    """The command, or None where one of its fields has no meaning."""
    return None if None in command else command


def read_command(case, line):
    """The command that a line spells, or None."""
    word, *fields = line.split(b" ")
    if not fields:
        return ("step", 1) if word == b"step" else (word.decode(),) if word in ALONE else None
    if word == b"break":
        found = read_break(case, fields)
        return whole("break", found)
    if len(fields) != 1:
        return None
    if word == b"step":
        return whole("step", number_of(fields[0], 1, ROW_LIMIT))
    if word == b"until":
        return whole("until", number_of(fields[0]))
    if word in (b"watch", b"unwatch"):
        return (word.decode(), fields[0])
    if word in (b"show", b"queue"):
        return whole(word.decode(), case.router_number(fields[0]))
    return None


def read_break(case, fields):
    """The break that the fields behind `break` spell, or None."""
    kind = (fields[0], len(fields))
    if kind == (b"at", 3):
        return whole("at", number_of(fields[1]), number_of(fields[2]))
    if kind == (b"router", 2):
        return whole("router", case.router_number(fields[1]))
    if kind == (b"port", 3):
        return whole("port", case.router_number(fields[1]), number_of(fields[2], 0, MAX_PORT))
    if kind == (b"body", 2):
        return whole("body", unhex(fields[1]))
    return None


def matches(one, row):
    """Whether a break matches a row."""
    (group, total, *_), router, (kind, number, body) = row
    if one[0] == "at":
        return (group, total) == one[1:]
    if one[0] == "router":
        return router == one[1]
    if one[0] == "port":
        return kind == MSG and (router, number) == one[1:]
    return kind in (CMD, MSG) and body.startswith(one[1])
