"""A router's state: its image decoded to the model's router, and what it holds in words."""

from model.guests import guest_of_image
from model.guests.flood import Flood
from model.guests.ospf.guest import FULL, INIT, Ospf
from model.guests.rip.guest import Rip
from model.guests.rip.wire import INFINITY

from .commands import dotted, net
from .network import Network
from .packets import bytes_words, lsa_name, lsa_words
from .reading import State
from .tool import BadInput

NEIGHBOUR_WORDS = {INIT: "init", FULL: "full"}


def guest_of(network: Network, state: State) -> Flood | Ospf | Rip:
    """The model's router of a final state; raises `BadInput` if the image isn't one of its kind."""
    kind = network.case.routers[state.router].kind
    try:
        return guest_of_image(kind, state.image)
    except ValueError as error:
        raise BadInput("line %d: the image is none of %s router: %s" % (state.line, kind.decode(), error)) from error


def up_words(network: Network, router: int, mask: int) -> str:
    """Which ports are up, or which are down if fewer are."""
    count = len(network.ends[router])
    down = ["%d (to %s)" % (port, network.neighbour(router, port)) for port in range(count) if not mask >> port & 1]
    if not down:
        return "all ports up" if count else "no ports"
    return "port%s %s down" % ("s" if len(down) > 1 else "", ", ".join(down))


def guest_words(network: Network, router: int, guest: Flood | Ospf | Rip) -> list[str]:
    """What a router holds, a line each: neighbours, own networks and database, or its table, or its bodies."""
    if isinstance(guest, Ospf):
        return ospf_words(network, router, guest)
    if isinstance(guest, Rip):
        return rip_words(network, router, guest)
    held = ["holds %s (%s)" % (body.hex(), bytes_words(len(body))) for body in sorted(guest.bodies)]
    return held or ["holds nothing"]


def ospf_words(network: Network, router: int, guest: Ospf) -> list[str]:
    """Neighbours, what waits for an acknowledgement, and the database."""
    lines = ["router id %s, last tick %d" % (dotted(guest.id), guest.now)]
    for port, held in enumerate(guest.ports):
        words = "port %d to %s: %s" % (port, network.neighbour(router, port), neighbour_words(held))
        lines.append(words)
        lines += ["  not acknowledged there: %s, sent at %d" % (lsa_name(*key), sent)
                  for key, sent in sorted(held.list.items())]
    lines += ["own network %s cost %d" % (net(*network_), cost) for network_, cost in sorted(guest.networks.items())]
    for key in sorted(guest.database.map):
        kept, age = guest.database.get(key), guest.database.age(key, guest.now)
        lines.append("database: " + lsa_words(kept.lsa.at_age(age)))
    return lines


def neighbour_words(port) -> str:
    """A port's neighbour."""
    if port.state not in NEIGHBOUR_WORDS:
        return "no neighbour"
    return "neighbour %s %s, last heard at %d" % (dotted(port.id), NEIGHBOUR_WORDS[port.state], port.heard)


def rip_words(network: Network, router: int, guest: Rip) -> list[str]:
    """The table."""
    lines = ["last tick %d" % guest.now]
    for (address, length), held in guest.routes():
        via = "own" if held.via is None else "port %d to %s" % (held.via, network.neighbour(router, held.via))
        metric = "%d" % held.metric + (" (unreachable)" if held.metric == INFINITY else "")
        since = "since" if held.via is None or held.metric == INFINITY else "last heard at"
        tag = ", tag %d" % held.tag if held.tag else ""
        lines.append("table: %s metric %s via %s, %s %d%s" % (net(address, length), metric, via, since, held.time, tag))
    return lines
