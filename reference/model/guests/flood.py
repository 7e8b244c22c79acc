"""The flooding guest (docs/MODEL.md, "Nodes and guests")."""

from ..events import CMD, MSG
from ..octets import Reader

MAX_BODIES = 65_535


class Flood:
    """A set of bodies; each new one is put out on every other port that is up."""

    def __init__(self, bodies=()):
        self.bodies = set(bodies)

    def fork(self):
        """An equal guest that changes by itself."""
        return Flood(self.bodies)

    def step(self, mask, entry):
        """Takes an input; gives the outputs as (port, body)."""
        kind, number, body = entry
        if kind not in (CMD, MSG) or not 1 <= len(body) <= 255:
            return []
        if body in self.bodies or len(self.bodies) >= MAX_BODIES:
            return []
        self.bodies.add(body)
        came = number if kind == MSG else None
        return [(port, body) for port in range(16) if mask >> port & 1 and port != came]

    def image(self):
        """The number of bodies, then each body behind its length."""
        packed = [bytes([len(body)]) + body for body in sorted(self.bodies)]
        return len(packed).to_bytes(2, "big") + b"".join(packed)

    def show(self):
        """The lines that it shows: one for each body."""
        return [b"seen " + body.hex().encode() for body in sorted(self.bodies)]

    @classmethod
    def of_image(cls, raw):
        """The guest whose image these bytes are; raises `ValueError` where they are none."""
        reader = Reader(raw)
        bodies = [reader.take(reader.number(1)) for _ in range(reader.number(2))]
        reader.end()
        return cls(bodies)
