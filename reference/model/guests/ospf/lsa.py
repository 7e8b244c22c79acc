"""LSAs: header, LS checksum (12.1.7), the newer instance (13.1), and the links of a router-LSA (A.4.2)."""

import struct
from itertools import accumulate
from typing import NamedTuple

from ...octets import number

MAX_AGE, MAX_AGE_DIFFERENCE, ROUTER_LSA = 3600, 900, 1
POINT_TO_POINT, STUB = 1, 3
HEAD = struct.Struct(">HBBIIIHH")
LINK = struct.Struct(">IIBBH")
HEAD_SIZE = HEAD.size


class Head(NamedTuple):
    """An LSA's header."""

    age: int
    options: int
    kind: int
    id: int
    router: int
    seq: int
    sum: int
    length: int

    def key(self):
        """The LSA's name."""
        return self.kind, self.id, self.router

    def encode(self):
        """Its bytes."""
        return HEAD.pack(*self)


def decode_head(raw):
    """The header in 20 bytes."""
    return Head(*HEAD.unpack(raw))


class Lsa(NamedTuple):
    """A header and a body."""

    head: Head
    body: bytes

    def encode(self):
        """Its bytes."""
        return self.head.encode() + self.body

    def at_age(self, age):
        """The same at another age."""
        return Lsa(self.head._replace(age=age), self.body)


def fletcher_sums(lsa):
    """Both sums over the bytes from the options on, modulo 255."""
    covered = lsa.encode()[2:]
    weighted = sum(accumulate(covered))     # the first byte is in all of the sums so far, the last one in one of them
    return sum(covered) % 255, weighted % 255


def fletcher_ok(lsa):
    """Whether the LS checksum is right."""
    return fletcher_sums(lsa) == (0, 0)


def fletcher_set(lsa):
    """The LSA with the two check bytes, from 1 to 255, that make both sums 0."""
    bare = Lsa(lsa.head._replace(sum=0), lsa.body)
    plain, weighted = fletcher_sums(bare)
    second_weight = 3 + len(lsa.body)       # of the second check byte, which stands 3 bytes before the body
    first = (second_weight * plain - weighted) % 255 or 255
    second = (-plain - first) % 255 or 255
    return Lsa(lsa.head._replace(sum=first * 256 + second), lsa.body)


def signed(seq):
    """A sequence number as a signed number of 32 bits."""
    return seq - (1 << 32) if seq >> 31 else seq


def newer(one, two):
    """1 where header `one` is the newer instance, -1 where `two` is, 0 where they are the same."""
    if one.seq != two.seq:
        return 1 if signed(one.seq) > signed(two.seq) else -1
    if one.sum != two.sum:
        return 1 if one.sum > two.sum else -1
    if (one.age == MAX_AGE) != (two.age == MAX_AGE):
        return 1 if one.age == MAX_AGE else -1
    if abs(one.age - two.age) > MAX_AGE_DIFFERENCE:
        return 1 if one.age < two.age else -1
    return 0


def links_of(body):
    """The links (kind, id, data, metric) of a router-LSA, or None where it isn't well formed."""
    if len(body) < 4:
        return None
    links, place = [], 4
    for _ in range(number(body, 2, 2)):
        if place + LINK.size > len(body):
            return None
        link_id, data, kind, metrics, metric = LINK.unpack_from(body, place)
        links.append((kind, link_id, data, metric))
        place += LINK.size + 4 * metrics
    return links if place == len(body) else None


def encode_links(links):
    """The body of a router-LSA with these links."""
    packed = [LINK.pack(link_id, data, kind, 0, metric) for kind, link_id, data, metric in links]
    return struct.pack(">HH", 0, len(links)) + b"".join(packed)
