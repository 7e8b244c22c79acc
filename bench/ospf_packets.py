"""Prints the packets that bench/ospf.sh decodes: a Hello with 16 neighbours, and an Update with ten
LSAs of 444 bytes."""
import struct


def words(data):
    total = sum(struct.unpack(">%dH" % (len(data) // 2), data))
    while total >> 16:
        total = (total & 0xFFFF) + (total >> 16)
    return total


def packet(kind, body):
    head = struct.pack(">BBHIIHH", 2, kind, 24 + len(body), 1, 0, 0, 0)
    check = 0xFFFF - words(head + body)
    return head[:12] + struct.pack(">H", check) + head[14:] + bytes(8) + body


hello = struct.pack(">IHBBIII", 0, 10, 2, 0, 40, 0, 0) + struct.pack(">16I", *range(2, 18))
lsa = struct.pack(">HBBIIIHH", 1, 2, 1, 5, 5, 0x80000001, 0x0101, 444) + bytes(range(212)) * 2
print(packet(1, hello).hex())
print(packet(4, struct.pack(">I", 10) + lsa * 10).hex())
