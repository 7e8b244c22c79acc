"""OSPF packets (appendix A)."""

from dataclasses import dataclass
from functools import lru_cache

from ...octets import number, packed
from .lsa import HEAD_SIZE, Lsa, decode_head

HELLO, UPDATE, ACK = 1, 4, 5
VERSION = 2
PACKET_HEAD = 24
HELLO_INTERVAL, DEAD_INTERVAL = 10, 40
EXTERNAL_ROUTING = 2


@dataclass(frozen=True)
class Hello:
    """A Hello. A router looks at interval, options, dead interval and neighbours alone."""

    interval: int
    options: int
    dead: int
    neighbours: tuple
    mask: int = 0
    priority: int = 0
    designated: int = 0
    backup: int = 0


@dataclass(frozen=True)
class Packet:
    """A packet; `body` is a Hello, a list of LSAs, or a list of headers."""

    kind: int
    router: int
    area: int
    body: object


def ones_sum(data):
    """The one's complement sum of the words of 16 bits (RFC 1071).

    It is their plain sum modulo 65,535, as 65,536 is 1, and 0 only where all words are 0.
    """
    total = int.from_bytes(data + b"\0" * (len(data) % 2), "big")
    return (total - 1) % 0xFFFF + 1 if total else 0


def checksum(packet):
    """The checksum of a packet whose field is zero; the authentication isn't summed."""
    return 0xFFFF - ones_sum(packet[:16] + packet[PACKET_HEAD:])


def encode_packet(kind, router, body, area=0):
    """A packet with zeros as authentication, and the right checksum."""
    head = packed((VERSION, 1), (kind, 1), (PACKET_HEAD + len(body), 2), (router, 4), (area, 4))
    return head + packed((checksum(head + bytes(12) + body), 2), (0, 10)) + body


def encode_hello(router, neighbours):
    """A Hello of a router (A.3.2)."""
    body = packed((0, 4), (HELLO_INTERVAL, 2), (EXTERNAL_ROUTING, 1), (0, 1), (DEAD_INTERVAL, 4), (0, 8))
    return encode_packet(HELLO, router, body + packed(*((one, 4) for one in neighbours)))


def encode_update(router, lsas):
    """An Update of a router (A.3.5)."""
    body = packed((len(lsas), 4)) + b"".join(lsa.encode() for lsa in lsas)
    return encode_packet(UPDATE, router, body)


def encode_ack(router, heads):
    """An Acknowledgement of a router (A.3.6)."""
    return encode_packet(ACK, router, b"".join(head.encode() for head in heads))


BODIES = {HELLO: "a Hello", UPDATE: "an Update", ACK: "an Acknowledgement"}


@lru_cache(maxsize=1024)
def decode(raw):
    """The packet, or None where the bytes aren't one of the grammar."""
    if head_fault(raw) is not None:
        return None
    body = decode_body(raw)
    return None if body is None else Packet(raw[1], number(raw, 4, 4), number(raw, 8, 4), body)


def decode_body(raw):
    """What the packet has behind a good header, or None."""
    return {HELLO: decode_hello, UPDATE: decode_update, ACK: decode_ack}[raw[1]](raw[PACKET_HEAD:])


def head_fault(raw):
    """Why the header, the length or the sum are not those of a packet of the grammar, in words, or None."""
    if len(raw) < PACKET_HEAD:
        return "%d bytes, and a header alone has %d" % (len(raw), PACKET_HEAD)
    if raw[0] != VERSION:
        return "version %d" % raw[0]
    if number(raw, 2, 2) != len(raw):
        return "its length says %d, and there are %d bytes" % (number(raw, 2, 2), len(raw))
    if raw[14:16] != b"\0\0":
        return "authentication type %d" % number(raw, 14, 2)
    if ones_sum(raw[:16] + raw[PACKET_HEAD:]) != 0xFFFF:
        return "wrong checksum"
    return None if raw[1] in BODIES else "type %d" % raw[1]


def fault(raw):
    """Why the bytes aren't a packet of the grammar, in words; None exactly where `decode` gives a packet."""
    found = head_fault(raw)
    if found is None and decode_body(raw) is None:
        return "not the body of " + BODIES[raw[1]]
    return found


def decode_hello(raw):
    """The Hello, or None."""
    if len(raw) < 20 or len(raw) % 4:
        return None
    neighbours = tuple(number(raw, place, 4) for place in range(20, len(raw), 4))
    return Hello(number(raw, 4, 2), raw[6], number(raw, 8, 4), neighbours,
                 number(raw, 0, 4), raw[7], number(raw, 12, 4), number(raw, 16, 4))


def decode_update(raw):
    """The LSAs, or None."""
    if len(raw) < 4:
        return None
    lsas, place = [], 4
    for _ in range(number(raw, 0, 4)):
        if place + HEAD_SIZE > len(raw):
            return None
        head = decode_head(raw[place:place + HEAD_SIZE])
        if head.length < HEAD_SIZE or place + head.length > len(raw):
            return None
        lsas.append(Lsa(head, raw[place + HEAD_SIZE:place + head.length]))
        place += head.length
    return lsas if place == len(raw) else None


def decode_ack(raw):
    """The headers, or None."""
    if len(raw) % HEAD_SIZE:
        return None
    return [decode_head(raw[place:place + HEAD_SIZE]) for place in range(0, len(raw), HEAD_SIZE)]
