"""Addresses of 32 bits, lengths and masks."""

ALL_BITS = 0xFFFFFFFF


def mask_of(length):
    """The mask of a length of 0 to 32."""
    return ALL_BITS << (32 - length) & ALL_BITS


def length_of(mask):
    """The length of a mask, or None where the mask isn't contiguous."""
    length = bin(mask).count("1")
    return length if mask_of(length) == mask else None


def has_host_bits(address, length):
    """Whether the address has bits past the length."""
    return address & ~mask_of(length) & ALL_BITS != 0


def net_text(address, length):
    """`A.B.C.D/LEN`."""
    return b"%d.%d.%d.%d/%d" % (*address.to_bytes(4, "big"), length)


def route_line(network, cost, ways):
    """The line of a show for the route to (address, length); `ways` are words."""
    return b"route %s %d via %s" % (net_text(*network), cost, b" ".join(ways))
