"""Numbers in bytes, the greatest byte first."""


def packed(*fields):
    """The bytes of these fields, each a value and its size."""
    return b"".join([value.to_bytes(size, "big") for value, size in fields])


def number(raw, place, size):
    """The number in the bytes at a place."""
    return int.from_bytes(raw[place:place + size], "big")


class Reader:
    """Takes numbers and bytes off the front of some bytes; raises `ValueError` where they end too early."""

    def __init__(self, raw):
        self.raw, self.place = raw, 0

    def take(self, size):
        """The next bytes."""
        if self.place + size > len(self.raw):
            raise ValueError("the bytes end too early")
        self.place += size
        return self.raw[self.place - size:self.place]

    def number(self, size):
        """The next number of so many bytes."""
        return int.from_bytes(self.take(size), "big")

    def end(self):
        """Raises `ValueError` where bytes are left."""
        if self.place != len(self.raw):
            raise ValueError("bytes are left over")
