"""IPv4 packets (RFC 791) around the routers' messages, and their addresses.

A router's links are unnumbered, so it has one address, of the documentation's block (RFC 5737): the router of number n
has 192.0.2.(n + 1). OSPF goes to AllSPFRouters in IP protocol 89 (RFC 2328, appendix A.1), RIP to its multicast address
in UDP port 520 (RFC 2453, sections 4 and 4.5). A flooding router's bytes have protocol 253, which is for experiments
(RFC 3692).
"""

import struct

from model.guests.ospf.wire import ones_sum

HEADER = struct.Struct(">BBHHHBBH4s4s")
UDP = struct.Struct(">HHHH")
OSPF_PROTOCOL, UDP_PROTOCOL, EXPERIMENT = 89, 17, 253
ALL_SPF_ROUTERS, RIP_ROUTERS, ALL_SYSTEMS = bytes((224, 0, 0, 5)), bytes((224, 0, 0, 9)), bytes((224, 0, 0, 1))
RIP_PORT = 520
INTERNETWORK_CONTROL = 0xC0
HEADER_SIZE = HEADER.size
MOST_BODY = 0xFFFF - HEADER_SIZE - UDP.size


def address(router: int) -> bytes:
    """The address of a router."""
    return bytes((192, 0, 2, router + 1))


def datagram(protocol: str, sender: int, number: int, body: bytes) -> bytes:
    """The IPv4 packet with a message of a protocol (`ospf`, `rip` or `flood`); `number` is the sender's of it."""
    if protocol == "ospf":
        return ipv4(sender, ALL_SPF_ROUTERS, OSPF_PROTOCOL, number, body)
    if protocol == "rip":
        return ipv4(sender, RIP_ROUTERS, UDP_PROTOCOL, number, udp(address(sender), RIP_ROUTERS, body))
    return ipv4(sender, ALL_SYSTEMS, EXPERIMENT, number, body)


def ipv4(sender: int, to: bytes, protocol: int, number: int, payload: bytes) -> bytes:
    """An IPv4 packet that goes over one link, with the right header checksum."""
    fields = [0x45, INTERNETWORK_CONTROL, HEADER_SIZE + len(payload), number & 0xFFFF, 0, 1, protocol, 0,
              address(sender), to]
    fields[7] = 0xFFFF - ones_sum(HEADER.pack(*fields))
    return HEADER.pack(*fields) + payload


def udp(sender: bytes, to: bytes, body: bytes) -> bytes:
    """A UDP datagram of RIP with the right checksum, in which 0 is written as 0xffff (RFC 768)."""
    size = UDP.size + len(body)
    pseudo = sender + to + struct.pack(">HH", UDP_PROTOCOL, size)
    bare = UDP.pack(RIP_PORT, RIP_PORT, size, 0) + body
    return UDP.pack(RIP_PORT, RIP_PORT, size, (0xFFFF - ones_sum(pseudo + bare)) or 0xFFFF) + body
