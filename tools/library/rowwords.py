"""An input and a row in one line of words."""

from model.events import CMD, DOWN, MSG, TICK, UP

from .commands import command_words
from .network import Network
from .packets import Packet, packet
from .reading import Row

INPUT_KINDS = {TICK: "tick", CMD: "command", DOWN: "down", UP: "up"}


def packet_of(network: Network, row: Row) -> Packet | None:
    """The packet of a row that is a message, else None."""
    if row.input != MSG:
        return None
    return packet(network.protocol(row.origin, row.router), row.body)


def kind_of(network: Network, row: Row) -> str:
    """The kind of a row's input: `tick`, `command`, `down`, `up`, or its packet's kind (`packets.KINDS`)."""
    found = packet_of(network, row)
    return INPUT_KINDS[row.input] if found is None else found.kind


def input_words(network: Network, router: int, entry: tuple, sender: int | None = None) -> str:
    """An input of `model.events` at a router in words; `sender` is needed for a message."""
    kind, number, body = entry
    if kind == TICK:
        return "tick"
    if kind == CMD:
        return "command: " + command_words(body, network.kinds[router])
    if kind == MSG:
        return packet(network.protocol(router if sender is None else sender, router), body).words
    return "port %d to %s goes %s" % (number, network.neighbour(router, number), "down" if kind == DOWN else "up")


def row_words(network: Network, row: Row) -> str:
    """What comes in a row, without its time and router."""
    return input_words(network, row.router, row.event[2], row.origin)


def external_line_words(network: Network, router: int, entry: tuple) -> str:
    """An external of the feed in words, with its router: `a: port 1 to d goes down`, `a: set 10.0.0.0/8 cost 3`."""
    return "%s: %s" % (network.names[router], input_words(network, router, entry).removeprefix("command: "))
