"""The OSPF or RIP message of a captured frame."""

from dataclasses import dataclass

from library.tool import BadInput
from model.octets import number as number_in

from .captures import Frame

NULL, ETHERNET, RAW, LOOP, COOKED, IPV4, COOKED_2 = 0, 1, 101, 108, 113, 228, 276
RAW_TYPES = (RAW, IPV4, 12, 14)
ETHERNET_IPV4, VLAN_TAGS = 0x0800, (0x8100, 0x88A8)
OSPF_PROTOCOL, UDP_PROTOCOL, RIP_PORT = 89, 17, 520
OSPF_HEAD = 24


@dataclass(frozen=True)
class Message:
    """A message of a real router: the frame's number and time, its sender's address, its protocol and its bytes."""

    number: int
    time: float
    sender: str
    protocol: str
    body: bytes


class Passed(Exception):
    """Why a frame isn't taken, in words."""


def message_of(frame: Frame) -> Message | None:
    """The message of a frame; None if it is of another protocol. Raises `Passed` if it is one and can't be taken."""
    packet = ipv4_of(frame)
    if packet is None or len(packet) < 20 or packet[0] >> 4 != 4:
        return None
    protocol, head, sender = packet[9], (packet[0] & 15) * 4, ".".join(map(str, packet[12:16]))
    if protocol not in (OSPF_PROTOCOL, UDP_PROTOCOL):
        return None
    payload = packet[head:number_in(packet, 2, 2)]
    if protocol == UDP_PROTOCOL:
        if len(payload) < 8 or RIP_PORT not in (number_in(payload, 0, 2), number_in(payload, 2, 2)):
            return None
        payload = payload[8:number_in(payload, 4, 2)]
    if number_in(packet, 6, 2) & 0x3FFF:
        raise Passed("a fragment of an IP packet")
    if len(frame.data) < frame.length:
        raise Passed(f"only {len(frame.data)} of its {frame.length} bytes were captured")
    name = "ospf" if protocol == OSPF_PROTOCOL else "rip"
    return Message(frame.number, frame.time, sender, name, bare(payload) if name == "ospf" else payload)


def bare(payload: bytes) -> bytes:
    """An OSPF packet without what follows it, as a block of link-local signaling (RFC 5613) does."""
    length = number_in(payload, 2, 2) if len(payload) >= OSPF_HEAD else 0
    return payload[:length] if OSPF_HEAD <= length < len(payload) else payload


def ipv4_of(frame: Frame) -> bytes | None:
    """The IP packet of a frame, or None; raises `BadInput` for a link type that isn't known."""
    data = frame.data
    if frame.link in RAW_TYPES:
        return data
    if frame.link in (NULL, LOOP):
        return data[4:]
    if frame.link == ETHERNET:
        place = 12
        while number_in(data, place, 2) in VLAN_TAGS:
            place += 4
        return data[place + 2:] if number_in(data, place, 2) == ETHERNET_IPV4 else None
    if frame.link == COOKED:
        return data[16:] if number_in(data, 14, 2) == ETHERNET_IPV4 else None
    if frame.link == COOKED_2:
        return data[20:] if number_in(data, 0, 2) == ETHERNET_IPV4 else None
    raise BadInput(f"packet {frame.number}: link type {frame.link} isn't known; Ethernet, raw IP, Linux cooked and "
                   "loopback are")
