"""RIP messages and their entries (sections 3.6 and 4)."""

import struct
from dataclasses import dataclass

from ...nets import has_host_bits, length_of

ENTRY = struct.Struct(">HHIIII")
REQUEST, RESPONSE = 1, 2
VERSION = 2
IP, ANY_FAMILY, AUTHENTICATION = 2, 0, 0xFFFF
INFINITY = 16
MOST_ENTRIES = 25


@dataclass
class Entry:
    """An entry of 20 bytes."""

    family: int
    tag: int
    address: int
    mask: int
    hop: int
    metric: int

    def encode(self):
        """Its bytes."""
        return ENTRY.pack(self.family, self.tag, self.address, self.mask, self.hop, self.metric)

    def network(self):
        """(address, length) where the entry names a network, else None."""
        length = length_of(self.mask)
        if length is None or has_host_bits(self.address, length):
            return None
        return self.address, length

    def is_of_interest(self):
        """Whether an entry of a response is looked at (3.9.2)."""
        if self.family != IP or self.network() is None or not 1 <= self.metric <= INFINITY:
            return False
        first = self.address >> 24
        is_default = self.address == 0 and self.mask == 0
        return is_default or (first not in (0, 127) and first < 224)


def fault(body):
    """Why the bytes are no message, in words, or None."""
    count, left = divmod(len(body) - 4, ENTRY.size)
    if left != 0:
        return "%d bytes, which is not 4 and 20 for each entry" % len(body)
    if not 1 <= count <= MOST_ENTRIES:
        return "%d entries" % max(0, count)
    if body[0] not in (REQUEST, RESPONSE):
        return "command %d" % body[0]
    return None if body[1] == VERSION else "version %d" % body[1]


def decode(body):
    """(command, entries), or None where the bytes are no message."""
    if fault(body) is not None:
        return None
    return body[0], [Entry(*fields) for fields in ENTRY.iter_unpack(body[4:])]


def encode(command, entries):
    """The bytes of a message."""
    return bytes([command, VERSION, 0, 0]) + b"".join(entry.encode() for entry in entries)


def whole_table_request():
    """The request for the whole table (3.9.1)."""
    return encode(REQUEST, [Entry(ANY_FAMILY, 0, 0, 0, 0, INFINITY)])
