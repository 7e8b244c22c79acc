"""The guests: what a router of each kind does with an input."""

from .flood import Flood
from .ospf.guest import Ospf
from .rip.guest import Rip


def opening_guest(case, number):
    """The guest of a router of a case at the opening."""
    router = case.routers[number]
    if router.kind == b"flood":
        return Flood()
    kind = Ospf if router.kind == b"ospf" else Rip
    return kind(number, case.costs(number), router.prefixes)


def guest_of_image(kind, raw):
    """The guest of a router of this kind with this image; raises `ValueError` where the bytes are none."""
    return {b"flood": Flood, b"ospf": Ospf, b"rip": Rip}[kind].of_image(raw)
