"""The node step (docs/MODEL.md, "Nodes and guests"), for a guest of any kind."""

from .events import DOWN, MSG, UP, message_event
from .guests import opening_guest
from .numbers import U64_MAX


def opening_nodes(case):
    """The nodes of a case's routers at the opening."""
    return [Node(opening_guest(case, router), case.port_count(router))
            for router in range(len(case.routers))]


class Node:
    """A guest, the mask of the ports that are up, and the count of what was sent.

    A guest has `step(mask, entry)`, which changes it and gives the outputs as
    (port, body); `fork()`, an equal guest that changes by itself; `image()`; and
    `show()`, the lines that it shows.
    """

    def __init__(self, guest, port_count):
        self.guest, self.mask, self.sends = guest, (1 << port_count) - 1, 0

    def fork(self):
        """An equal node that changes by itself."""
        node = Node(self.guest.fork(), 0)
        node.mask, node.sends = self.mask, self.sends
        return node

    def is_up(self, port):
        """Whether a port is up; one past 15 never is."""
        return port < 16 and self.mask >> port & 1 == 1

    def change_port(self, kind, port):
        """The mask after a port change; a port past 15 has no bit."""
        if kind == DOWN and port < 16:
            self.mask &= ~(1 << port)
        if kind == UP and port < 16:
            self.mask |= 1 << port

    def step(self, entry):
        """Takes an input; gives the numbered outputs as (seq, port, body)."""
        kind, number, _ = entry
        if kind == MSG and not self.is_up(number):
            return []
        self.change_port(kind, number)
        numbered = []
        for port, body in self.guest.step(self.mask, entry):
            if self.is_up(port):
                numbered.append((self.sends, port, body))
                self.sends = (self.sends + 1) & U64_MAX
        return numbered

    def take(self, case, ends, event):
        """Takes an event; gives the events that it emits, in order.

        `ends` is `case.ends(router)` of the event's router.
        """
        _, router, entry = event
        emitted = []
        for seq, port, body in self.step(entry):
            if port < len(ends):
                message = message_event(case, event, ends[port], router, seq, body)
                if message is not None:
                    emitted.append(message)
        return emitted
