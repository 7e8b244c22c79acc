"""The pcapng file format (draft-ietf-opsawg-pcapng), as much as is written here. All numbers are little-endian."""

import struct

SECTION, INTERFACE, ENHANCED_PACKET = 0x0A0D0D0A, 1, 6
MAGIC = 0x1A2B3C4D
END, COMMENT = 0, 1
APPLICATION = 4
NAME, DESCRIPTION, RESOLUTION = 2, 3, 9
FLAGS = 2
INBOUND = 1
RAW_IP = 101
NANOSECONDS = 9


def padded(data: bytes) -> bytes:
    """The bytes up to the next multiple of four."""
    return data + bytes(-len(data) % 4)


def block(kind: int, body: bytes) -> bytes:
    """A block, with its length before and after."""
    size = 12 + len(body)
    return struct.pack("<II", kind, size) + body + struct.pack("<I", size)


def options(chosen: list[tuple[int, bytes]]) -> bytes:
    """A list of options and its end."""
    made = [struct.pack("<HH", code, len(value)) + padded(value) for code, value in chosen]
    return b"".join(made) + struct.pack("<HH", END, 0)


def section(application: str, comment: str) -> bytes:
    """The block that begins a file."""
    body = struct.pack("<IHHq", MAGIC, 1, 0, -1)
    return block(SECTION, body + options([(COMMENT, comment.encode()), (APPLICATION, application.encode())]))


def interface(name: str, description: str) -> bytes:
    """An interface of raw IP packets; the first one of a file has the number 0."""
    chosen = [(NAME, name.encode()), (DESCRIPTION, description.encode()), (RESOLUTION, bytes([NANOSECONDS]))]
    return block(INTERFACE, struct.pack("<HHI", RAW_IP, 0, 0) + options(chosen))


def packet(number: int, time: int, data: bytes, comment: str) -> bytes:
    """A packet that came in on the interface of this number at a time in nanoseconds."""
    head = struct.pack("<IIIII", number, time >> 32, time & 0xFFFFFFFF, len(data), len(data))
    chosen = [(COMMENT, comment.encode()), (FLAGS, struct.pack("<I", INBOUND))]
    return block(ENHANCED_PACKET, head + padded(data) + options(chosen))
