"""A feed in words.

A line is one of a case's feed, or one of these, which become such lines:

    @60 down a b [N]                  the link between a and b fails: the port of each end goes down
    @120 up a b [N]                   it comes back; N says which of several links between the two, from 1
    @5 set a 10.1.0.0/16 cost 3       router a gets a network, at this cost
    @9 withdraw a 10.1.0.0/16         router a's network is withdrawn
"""

from library.commands import as_command, command_bytes, link_externals
from library.network import Network as Wiring
from library.tool import BadInput
from model.case import MAX_RIP_COST, Case, External
from model.events import CMD
from model.shapes import external_shape

HELP = ("neither words (down A B, up A B, set A NET cost N, withdraw A NET) "
        "nor NAME cmd HEX, NAME down PORT, NAME up PORT")


def externals_of(case: Case, lines: list[str]) -> list[External]:
    """The externals of the lines, in the order of their groups; lines of one group keep theirs."""
    wiring = Wiring(case)
    found = [external for line in lines for external in externals_of_line(wiring, line)]
    return sorted(found, key=lambda external: external.group)


def externals_of_line(wiring: Wiring, line: str) -> list[External]:
    """The externals of one line."""
    fields = line.split()
    if len(fields) < 3 or not fields[0].startswith("@") or not fields[0][1:].isdecimal():
        raise BadInput(f'feed: "{line}" isn\'t "@GROUP ..", as "@60 down a b"')
    group = int(fields[0][1:])
    if group >= wiring.case.groups:
        raise BadInput(f'feed: "{line}": group {group}, and the last one is {wiring.case.groups - 1}')
    try:
        return [External(group, router, entry) for router, entry in inputs_of(wiring, fields[1:])]
    except BadInput as fault:
        raise BadInput(f'feed: "{line}": {fault}') from fault


def inputs_of(wiring: Wiring, words: list[str]) -> list[tuple[int, tuple]]:
    """The inputs that a line's words mean, each with its router."""
    if words[0] in ("down", "up") and len(words) in (3, 4):
        return link_externals(wiring, *words[:3], which_of(words[3:]))
    if words[0] in ("set", "withdraw"):
        return [command_of(wiring, words)]
    return [plain_input(wiring, words)]


def which_of(words: list[str]) -> int | None:
    """Which of several links is meant."""
    if words and not words[0].isdecimal():
        raise BadInput(f"{words[0]} isn't the number of a link")
    return int(words[0]) if words else None


def router_of(wiring: Wiring, name: str) -> int:
    """The number of a router."""
    number = wiring.number(name)
    if number is None:
        raise BadInput(f"no router is called {name}")
    return number


def command_of(wiring: Wiring, words: list[str]) -> tuple[int, tuple]:
    """The command of `set A NET cost N` or `withdraw A NET`."""
    router = router_of(wiring, words[1])
    kind = wiring.kinds[router]
    if kind == "flood":
        raise BadInput(f"{words[1]} is a flooding router and has no networks")
    body = command_bytes([words[0], *words[2:]])
    if kind == "rip" and words[0] == "set" and int(words[-1]) > MAX_RIP_COST:
        raise BadInput(f"{words[1]} is a RIP router: a metric is from 1 to {MAX_RIP_COST}")
    return router, as_command(body)


def plain_input(wiring: Wiring, words: list[str]) -> tuple[int, tuple]:
    """The input of `NAME cmd HEX`, `NAME down PORT` or `NAME up PORT`."""
    shape = external_shape(b"0", [word.encode() for word in words])
    if shape is None:
        raise BadInput(HELP)
    _, name, kind, last = shape[1]
    router = router_of(wiring, name.decode())
    if kind == CMD:
        return router, as_command(last)
    if wiring.end(router, last) is None:
        raise BadInput(f"{name.decode()} has no port {last}")
    return router, (kind, last, b"")
