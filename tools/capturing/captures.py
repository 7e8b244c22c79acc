"""Capture files: pcap (RFC draft-ietf-opsawg-pcap) and pcapng (draft-ietf-opsawg-pcapng), of either byte order."""

import struct
from collections.abc import Iterator
from dataclasses import dataclass

from library.tool import BadInput, warn

PCAP_MAGICS = {0xA1B2C3D4: 10**6, 0xA1B23C4D: 10**9}
SECTION, INTERFACE, SIMPLE, ENHANCED = 0x0A0D0D0A, 1, 3, 6
BYTE_ORDER = 0x1A2B3C4D
RESOLUTION = 9
FILE_HEAD, PACKET_HEAD, LEAST_BLOCK = 24, 16, 12


@dataclass(frozen=True)
class Frame:
    """A captured frame: number from 1, time in seconds, link type, bytes, and the length that it had on the wire."""

    number: int
    time: float
    link: int
    data: bytes
    length: int


def read_frames(data: bytes) -> Iterator[Frame]:
    """The frames of a capture file; raises `BadInput`. If the file ends within one, it is left out, and this is told."""
    try:
        if data[:4] == struct.pack("<I", SECTION):
            yield from pcapng_frames(data)
            return
        for order in "<>":
            if len(data) >= FILE_HEAD and struct.unpack_from(order + "I", data)[0] in PCAP_MAGICS:
                yield from pcap_frames(data, order)
                return
    except struct.error as error:
        raise BadInput("a block of the capture is shorter than its fields") from error
    raise BadInput("this is neither pcap nor pcapng")


def is_whole(data: bytes, place: int, size: int) -> bool:
    """Whether so many bytes are there; if they aren't, this is told."""
    if place + size > len(data):
        warn("the capture ends within a packet, which is left out")
        return False
    return True


def pcap_frames(data: bytes, order: str) -> Iterator[Frame]:
    """The frames of a pcap file."""
    magic, _, _, _, _, _, link = struct.unpack_from(order + "IHHiIII", data)
    place, number = FILE_HEAD, 0
    while place < len(data) and is_whole(data, place, PACKET_HEAD):
        seconds, part, size, length = struct.unpack_from(order + "IIII", data, place)
        number, place = number + 1, place + PACKET_HEAD
        if not is_whole(data, place, size):
            return
        yield Frame(number, seconds + part / PCAP_MAGICS[magic], link & 0xFFFF, data[place:place + size], length)
        place += size


def pcapng_frames(data: bytes) -> Iterator[Frame]:
    """The frames of a pcapng file."""
    order, place, number = "<", 0, 0
    interfaces: list[tuple[int, float]] = []
    while place < len(data) and is_whole(data, place, LEAST_BLOCK):
        kind = struct.unpack_from(order + "I", data, place)[0]
        if kind == SECTION:
            order = "<" if struct.unpack_from("<I", data, place + 8)[0] == BYTE_ORDER else ">"
            interfaces = []
        size = struct.unpack_from(order + "I", data, place + 4)[0]
        if size < LEAST_BLOCK:
            raise BadInput(f"the block at byte {place} has the length {size}, and the least is {LEAST_BLOCK}")
        if not is_whole(data, place, size):
            return
        body = data[place + 8:place + size - 4]
        if kind == INTERFACE:
            interfaces.append(read_interface(order, body))
        elif kind in (ENHANCED, SIMPLE):
            number += 1
            yield read_packet(order, kind, body, interfaces, number)
        place += size


def read_interface(order: str, body: bytes) -> tuple[int, float]:
    """An interface's link type and how many units of its times are a second."""
    link, place, units = struct.unpack_from(order + "H", body)[0], 8, 1e6
    while place + 4 <= len(body):
        code, size = struct.unpack_from(order + "HH", body, place)
        if code == RESOLUTION and size == 1:
            exponent = body[place + 4]
            units = 2.0 ** (exponent & 0x7F) if exponent & 0x80 else 10.0 ** exponent
        place += 4 + size + -size % 4
    return link, units


def read_packet(order: str, kind: int, body: bytes, interfaces: list[tuple[int, float]], number: int) -> Frame:
    """The frame of a packet's block; one of a simple block has no time and gets 0."""
    if kind == SIMPLE:
        length = struct.unpack_from(order + "I", body)[0]
        return Frame(number, 0.0, link_of(interfaces, 0, number)[0], body[4:4 + length], length)
    interface, high, low, size, length = struct.unpack_from(order + "IIIII", body)
    link, units = link_of(interfaces, interface, number)
    return Frame(number, ((high << 32) + low) / units, link, body[20:20 + size], length)


def link_of(interfaces: list[tuple[int, float]], place: int, number: int) -> tuple[int, float]:
    """An interface that the file has named before."""
    if place >= len(interfaces):
        raise BadInput(f"packet {number}: the capture has no interface {place}")
    return interfaces[place]
