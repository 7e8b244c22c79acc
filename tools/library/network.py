"""A case's network: names, neighbours at ports, moments and seconds."""

from dataclasses import dataclass
from functools import cached_property

from model.case import Case

GENERAL_DIGITS = 6


@dataclass(frozen=True)
class End:
    """What is at a router's port: the neighbour, its port, and the link's number in the case, delay and cost.

    The delay is in moments.
    """

    router: int
    port: int
    link: int
    delay: int
    cost: int


@dataclass
class Network:
    """The routers and links of a case; routers are numbered from 0."""

    case: Case

    @cached_property
    def names(self) -> list[str]:
        """The routers' names."""
        return [router.name.decode() for router in self.case.routers]

    @cached_property
    def kinds(self) -> list[str]:
        """The routers' kinds: `flood`, `ospf` or `rip`."""
        return [router.kind.decode() for router in self.case.routers]

    @cached_property
    def ends(self) -> list[list[End]]:
        """Per router and port in order: what is there."""
        found: list[list[End]] = [[] for _ in self.case.routers]
        for number, link in enumerate(self.case.links):
            found[link.a].append(End(link.b, link.b_port, number, link.delay, link.cost))
            found[link.b].append(End(link.a, link.a_port, number, link.delay, link.cost))
        return found

    def number(self, name: str) -> int | None:
        """The number of the router of this name, or None."""
        return self.case.router_number(name.encode())

    def end(self, router: int, port: int) -> End | None:
        """What is at a port, or None if the router has no such port."""
        return self.ends[router][port] if 0 <= port < len(self.ends[router]) else None

    def neighbour(self, router: int, port: int) -> str:
        """The neighbour's name at a port, or `nobody`."""
        end = self.end(router, port)
        return "nobody" if end is None else self.names[end.router]

    def ports_to(self, router: int, other: int) -> list[int]:
        """The ports of a router that lead to another one."""
        return [port for port, end in enumerate(self.ends[router]) if end.router == other]

    def protocol(self, sender: int, receiver: int) -> str:
        """How a message between two routers is read: as the sender's protocol, or if that floods as the receiver's.

        A flooding router sends any bytes, so a packet that it gives to an OSPF router is read as OSPF.
        """
        return self.kinds[receiver] if self.kinds[sender] == "flood" else self.kinds[sender]

    # -- time

    def moment(self, group: int, total: int) -> int:
        """The moment of a group and the sum within it, from the beginning of the run."""
        return group * self.case.period + total

    @cached_property
    def digits(self) -> int:
        """How many digits after the point tell all moments apart: exact if the period is a power of ten."""
        text = str(self.case.period)
        return len(text) - 1 if text.strip("0") == "1" else GENERAL_DIGITS

    def seconds(self, moment: int) -> str:
        """The moment in seconds, one second a group."""
        whole, part = divmod(moment, self.case.period)
        if self.digits == 0:
            return str(whole)
        return "%d.%0*d" % (whole, self.digits, part * 10 ** self.digits // self.case.period)

    def nanoseconds(self, moment: int) -> int:
        """The moment in nanoseconds, rounded down; different moments stay different."""
        whole, part = divmod(moment, self.case.period)
        return whole * 10 ** 9 + part * 10 ** 9 // self.case.period
