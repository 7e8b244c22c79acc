"""Crafted OSPF packets: valid ones with small changes."""

from model.guests.ospf.wire import ACK, HELLO, PACKET_HEAD, UPDATE, checksum, encode_packet
from model.nets import ALL_BITS
from model.octets import packed

CHECKSUM, AUTHENTICATION_TYPE, AUTHENTICATION = slice(12, 14), slice(14, 16), slice(16, 24)


def update_body(rng, lsas):
    """An Update's body; sometimes with a wrong count or length."""
    raw = b"".join(lsa.encode() for lsa in lsas)
    if rng.random() < 0.055:
        return wrong_update(rng, lsas, raw)
    return packed((len(lsas), 4)) + raw


def wrong_update(rng, lsas, raw):
    """An Update's body with a fault."""
    count, fault = len(lsas), rng.randrange(5)
    if fault == 0:
        return rng.randbytes(rng.randint(0, 3))
    if fault == 1:
        count = rng.choice((count + 1, max(0, count - 1), ALL_BITS))
    elif fault == 2:
        raw += rng.randbytes(rng.randint(1, 24))
    elif fault == 3 and raw:
        raw = raw[:rng.randint(0, len(raw) - 1)]
    elif lsas:
        place, old = len(raw) - len(lsas[-1].encode()) + 18, lsas[-1].head.length
        length = rng.choice((0, 19, 20, old - 1, old + 1, 65535))
        raw = raw[:place] + packed((length, 2)) + raw[place + 2:]
    return packed((count, 4)) + raw


def ack_body(rng, heads):
    """An Acknowledgement's body; seldom with a piece of a header."""
    raw = b"".join(head.encode() for head in heads)
    return raw + rng.randbytes(rng.randint(1, 19)) if rng.random() < 0.02 else raw


def hello_body(rng, neighbours, wild):
    """A Hello's body; a wild one has other intervals and options, or a wrong length."""
    interval, options, priority, dead = 10, 2, 0, 40
    if rng.random() < 0.2:
        options, priority = rng.choice((2, 3, 6, 255)), rng.getrandbits(8)
    if wild:
        interval = rng.choice((10, 10, 10, 9, 11, 0, 2570))
        dead = rng.choice((40, 40, 40, 39, 41, 0, 0x28000000))
        options = rng.choice((2, 2, 2, 0, 1, 253, 255))
    raw = packed((rng.choice((0, 0, 0xFFFFFF00)), 4), (interval, 2), (options, 1), (priority, 1), (dead, 4),
                 (rng.choice((0, 0, 1)), 4), (rng.choice((0, 0, 2)), 4))
    raw += packed(*((one, 4) for one in neighbours))
    if wild and rng.random() < 0.3:
        raw = raw[:rng.randint(0, len(raw))]
    return raw


def packet(rng, kind, router, body, wild=False):
    """A packet, with random authentication so that no two are alike; a wild one has a fault."""
    area = rng.choice((0, 0, 1, 1 << 24)) if wild else 0
    raw = bytearray(encode_packet(kind, router, body, area))
    if wild:
        raw = faulty(rng, raw)
    elif rng.random() < 0.03:
        raw = turned(rng, kind, raw)
    return bytes(authenticated(rng, raw))


def turned(rng, kind, raw):
    """The packet with two bytes such that both 0 and 0xFFFF are right as its checksum."""
    place = {HELLO: 26, UPDATE: 28, ACK: 24}[kind]
    if place + 2 <= len(raw):
        raw[CHECKSUM] = raw[place:place + 2] = b"\0\0"
        raw[place:place + 2] = packed((checksum(bytes(raw)), 2))
        raw[CHECKSUM] = rng.choice((b"\0\0", b"\xff\xff"))
    return raw


def authenticated(rng, raw):
    """The packet with other bytes as authentication."""
    if len(raw) >= PACKET_HEAD:
        raw[AUTHENTICATION] = rng.randbytes(8)
    return raw


def summed(raw):
    """The packet with the checksum that is right for the bytes that it has."""
    raw[CHECKSUM] = b"\0\0"
    raw[CHECKSUM] = packed((checksum(bytes(raw)), 2))
    return raw


def faulty(rng, raw):
    """One fault in the packet, mostly with a checksum that is right for it."""
    fault = rng.randrange(10)
    if fault == 0:
        raw[0] = rng.choice((0, 1, 3))
    elif fault == 1:
        raw[1] = rng.choice((0, 2, 3, 1, 4, 5, 6, 255))
    elif fault == 2:
        raw[2:4] = packed((max(0, len(raw) + rng.choice((-4, -1, 1, 4, 256))), 2))
    elif fault == 3:
        raw[AUTHENTICATION_TYPE] = rng.choice((b"\0\1", b"\1\0", b"\0\2"))
    elif fault == 4:
        raw[CHECKSUM] = rng.choice((b"\0\0", b"\xff\xff", rng.randbytes(2)))
        return raw
    elif fault in (5, 7):
        return other_length(rng, raw, fault == 5)
    elif fault == 6:
        raw[rng.randint(24, len(raw) - 1) if len(raw) > 24 else 0] ^= 1 << rng.randint(0, 7)
    return summed(raw) if rng.random() < 0.9 else raw


def other_length(rng, raw, shorter):
    """The packet cut off, or with bytes behind; its length field is made right or left."""
    if shorter:
        del raw[rng.randint(0, len(raw) - 1):]
    else:
        raw += rng.randbytes(rng.randint(1, 5))
    if len(raw) < PACKET_HEAD:
        return raw
    if rng.random() < 0.6:
        raw[2:4] = packed((len(raw), 2))
    return summed(raw)
