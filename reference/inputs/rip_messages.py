"""Crafted RIP messages: valid ones with small changes, at most 255 bytes."""

from model.case import MAX_BODY
from model.guests.rip.wire import Entry, encode
from model.nets import mask_of

ADDRESSES = (0x0A000000, 0x0A090000, 0x0A010200, 0, 0x7F000000, 0xE0000000, 0xDF000000,
             0x01000000, 0x0A800001, 0xFFFFFFFF, 0x80000000)
LENGTHS = (0, 8, 9, 16, 24, 31, 32)
STRANGE_MASKS = (0xFF00FF00, 0x0000FFFF, 0xFFFFFFFD)
METRICS = (1, 1, 2, 3, 14, 15, 16, 16, 0, 17, 0xFFFFFFFF, 0x01000001)


def rip_entry(rng):
    """An entry, mostly of a network."""
    address, mask = rng.choice(ADDRESSES), mask_of(rng.choice(LENGTHS))
    if rng.random() < 0.8:
        address &= mask
    if rng.random() < 0.05:
        mask = rng.choice(STRANGE_MASKS)
    family = 2 if rng.random() < 0.93 else rng.choice((0, 1, 0xFFFF))
    tag, hop = rng.choice((0, 0, 1, 65535)), rng.choice((0, 0, 7))
    return Entry(family, tag, address, mask, hop, rng.choice(METRICS))


def rip_message(rng):
    """A message; now and then one that has no decoding."""
    entries = [rip_entry(rng) for _ in range(rng.choice((1, 1, 2, 3, 6, 12)))]
    command = rng.choice((2, 2, 2, 2, 1))
    if command == 1 and rng.random() < 0.4:
        entries = [Entry(0, 0, rng.getrandbits(32), 0, 0, 16)]
    raw = bytearray(encode(command, entries))
    raw[2:4] = rng.randbytes(2)                          # so that no two messages are alike
    if rng.random() < 0.06:
        raw[rng.randint(0, 1)] = rng.choice((0, 1, 2, 3))
    if rng.random() < 0.05:
        raw = raw[:rng.randint(1, len(raw))] if rng.random() < 0.5 else raw + rng.randbytes(rng.randint(1, 4))
    return bytes(raw[:MAX_BODY])
