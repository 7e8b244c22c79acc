"""The bytes of a message: the packet, its kind, and what it says in words."""

from dataclasses import dataclass
from functools import lru_cache

from model.case import MAX_PORTS
from model.guests.ospf import wire as ospf
from model.guests.ospf.lsa import POINT_TO_POINT, ROUTER_LSA, STUB, Head, Lsa, links_of
from model.guests.rip import wire as rip
from model.nets import length_of

from .commands import dotted, net

HELLO, UPDATE, ACKNOWLEDGEMENT = "hello", "update", "acknowledgement"
REQUEST, RESPONSE, FLOODED, MALFORMED = "request", "response", "flooded", "malformed"
KINDS = (HELLO, UPDATE, ACKNOWLEDGEMENT, REQUEST, RESPONSE, FLOODED, MALFORMED)
LINK_KINDS = {1: "router", 2: "transit", 3: "network", 4: "virtual link"}
NORMAL_OPTIONS = 2


@dataclass(frozen=True)
class Packet:
    """A decoded message.

    `protocol` is `ospf`, `rip` or `flood`, `kind` one of `KINDS`. `title` says in a few words what it is, `words` in
    one line all that it has, `details` the same, a line for each of its parts. `decoded` is the packet of
    `model.guests.ospf.wire`, or (command, entries) of `model.guests.rip.wire`, or None.
    """

    protocol: str
    kind: str
    title: str
    words: str
    details: tuple[str, ...] = ()
    decoded: object = None


@lru_cache(maxsize=65_536)
def packet(protocol: str, body: bytes) -> Packet:
    """The packet that a message's bytes are for a protocol; any bytes are one of some kind."""
    if protocol == "ospf":
        return ospf_packet(body)
    if protocol == "rip":
        return rip_packet(body)
    words = "%s (%s)" % (body.hex() or "nothing", bytes_words(len(body)))
    return Packet("flood", FLOODED, "bytes", words, (words,))


def malformed(protocol: str, body: bytes, fault: str) -> Packet:
    """Bytes that are no packet, and why."""
    name = {"ospf": "OSPF", "rip": "RIP"}[protocol]
    words = "no %s packet: %s" % (name, fault)
    return Packet(protocol, MALFORMED, "no packet", words, (words, body.hex() or "no bytes"))


def bytes_words(count: int) -> str:
    """`1 byte`, `2 bytes`."""
    return "1 byte" if count == 1 else "%d bytes" % count


# -- OSPF


def ospf_packet(body: bytes) -> Packet:
    """The OSPF packet of some bytes."""
    decoded = ospf.decode(body)
    if decoded is None:
        return malformed("ospf", body, ospf.fault(body))
    area = "" if decoded.area == 0 else " in area %s" % dotted(decoded.area)
    sender = dotted(decoded.router) + area
    made = {ospf.HELLO: hello, ospf.UPDATE: update, ospf.ACK: acknowledgement}[decoded.kind]
    kind, title, parts, line = made(sender, decoded.body)
    return Packet("ospf", kind, title, line, (title, *parts), decoded)


def hello(sender: str, body: ospf.Hello) -> tuple[str, str, list[str], str]:
    """A Hello."""
    heard = ", ".join(dotted(neighbour) for neighbour in body.neighbours) or "nobody"
    title = "Hello from " + sender
    parts = ["hears " + heard, *hello_oddities(body)]
    return HELLO, title, parts, ", ".join([title, *parts])


def hello_oddities(body: ospf.Hello) -> list[str]:
    """The fields of a Hello that aren't those of every router here."""
    wanted = (("interval", body.interval, ospf.HELLO_INTERVAL), ("dead interval", body.dead, ospf.DEAD_INTERVAL),
              ("options", body.options, ospf.EXTERNAL_ROUTING), ("priority", body.priority, 0))
    odd = ["%s %d" % (name, value) for name, value, usual in wanted if value != usual]
    addresses = (("mask", body.mask), ("designated router", body.designated), ("backup", body.backup))
    return odd + ["%s %s" % (name, dotted(value)) for name, value in addresses if value]


def update(sender: str, lsas: list[Lsa]) -> tuple[str, str, list[str], str]:
    """An Update: its LSAs, each with its links."""
    parts = [lsa_words(lsa) for lsa in lsas] or ["no LSA"]
    return UPDATE, "Update from " + sender, parts, "Update from %s: %s" % (sender, "; ".join(parts))


def acknowledgement(sender: str, heads: list[Head]) -> tuple[str, str, list[str], str]:
    """An Acknowledgement: the headers that it acknowledges."""
    parts = [head_words(head) for head in heads] or ["no header"]
    title = "Acknowledgement from " + sender
    return ACKNOWLEDGEMENT, title, parts, "%s: %s" % (title, "; ".join(parts))


def lsa_name(kind: int, link_state_id: int, router: int) -> str:
    """`router-LSA of 0.0.0.3`."""
    name = "router-LSA" if kind == ROUTER_LSA else "LSA of type %d" % kind
    id_words = "" if link_state_id == router else " with id " + dotted(link_state_id)
    return "%s of %s%s" % (name, dotted(router), id_words)


def head_words(head: Head) -> str:
    """An LSA's name, sequence number and age."""
    return "%s, sequence 0x%08x, age %d" % (lsa_name(*head.key()), head.seq, head.age)


def lsa_words(lsa: Lsa) -> str:
    """An LSA with its links."""
    if lsa.head.kind != ROUTER_LSA:
        return "%s, %s" % (head_words(lsa.head), bytes_words(len(lsa.body)))
    links = links_of(lsa.body)
    if links is None:
        return head_words(lsa.head) + ", links that don't fill it"
    return "%s, %s" % (head_words(lsa.head), "links " + ", ".join(map(link_words, links)) if links else "no links")


def link_words(link: tuple[int, int, int, int]) -> str:
    """A link of a router-LSA: `to 0.0.0.2 cost 1`, `10.9.0.0/16 cost 1`."""
    kind, link_id, data, metric = link
    if kind == POINT_TO_POINT:
        # A router here has its port's number plus 1 as the data of a link, a router of another kind an address.
        end = "port %d" % (data - 1) if 1 <= data <= MAX_PORTS else dotted(data)
        return "to %s by %s cost %d" % (dotted(link_id), end, metric)
    length = length_of(data)
    if kind == STUB and length is not None:
        return "%s cost %d" % (net(link_id, length), metric)
    name = LINK_KINDS.get(kind, "link of type %d" % kind)
    return "%s %s data %s cost %d" % (name, dotted(link_id), dotted(data), metric)


# -- RIP


def rip_packet(body: bytes) -> Packet:
    """The RIP message of some bytes."""
    decoded = rip.decode(body)
    if decoded is None:
        return malformed("rip", body, rip.fault(body))
    command, entries = decoded
    if command == rip.REQUEST:
        parts = request_words(entries)
        return rip_made(REQUEST, "Request", parts, decoded)
    return rip_made(RESPONSE, "Response", [entry_words(entry) for entry in entries], decoded)


def rip_made(kind: str, title: str, parts: list[str], decoded: tuple) -> Packet:
    """A RIP message of these parts."""
    return Packet("rip", kind, title, "%s: %s" % (title, ", ".join(parts)), (title, *parts), decoded)


def request_words(entries: list[rip.Entry]) -> list[str]:
    """What a request asks for."""
    first = entries[0]
    if len(entries) == 1 and first.family == rip.ANY_FAMILY and first.metric == rip.INFINITY:
        return ["the whole table"]
    return [entry_words(entry) for entry in entries]


def entry_words(entry: rip.Entry) -> str:
    """An entry: its network, metric, and what isn't usual in it."""
    if entry.family == rip.AUTHENTICATION:
        return "authentication of type %d" % entry.tag
    network = entry.network()
    where = net(*network) if network else "%s mask %s" % (dotted(entry.address), dotted(entry.mask))
    metric = "metric %d" % entry.metric + (" (unreachable)" if entry.metric == rip.INFINITY else "")
    odd = [] if entry.family == rip.IP else ["family %d" % entry.family]
    odd += ["tag %d" % entry.tag] if entry.tag else []
    odd += ["next hop " + dotted(entry.hop)] if entry.hop else []
    return " ".join([where, metric, *odd])
