"""What OSPF and RIP routers have in common: the tick, the ports, and commands that set networks."""

from ..events import CMD, DOWN, TICK, UP
from ..nets import has_host_bits
from ..octets import number as number_in

LAST_TICK = 65_535
MAX_NETWORKS = 32
SET, WITHDRAW = 1, 2


class Routing:
    """A router with its number, the last tick, and the cost of each port.

    A kind of router has `tick`, `set_network`, `withdraw_network`, `port_down`,
    `port_up`, `message` and `end_of_step`. What is put out goes to `out`.
    """

    def __init__(self, number, costs):
        self.number, self.costs, self.now = number, costs, 0
        self.out, self.up = [], []

    def step(self, mask, entry):
        """Takes an input; gives the outputs as (port, body)."""
        kind, number, body = entry
        self.out, self.up = [], [port for port in range(len(self.costs)) if mask >> port & 1]
        if kind == TICK:
            if not self.now <= number <= LAST_TICK:
                return []
            self.now = number
            self.tick()
        elif kind == CMD:
            self.command(body)
        elif number < len(self.costs):
            self.at_port(kind, number, body)
        self.end_of_step()
        return self.out

    def at_port(self, kind, port, body):
        """A port change or a message, at a port that the router has."""
        if kind == DOWN:
            self.port_down(port)
        elif kind == UP:
            self.port_up(port)
        else:
            self.message(port, body)

    def command(self, body):
        """Sets or withdraws a network, where the body has the form of a command."""
        form = (len(body), body[:1])
        if form not in ((8, bytes([SET])), (6, bytes([WITHDRAW]))):
            return
        address, length = number_in(body, 1, 4), body[5]
        if length > 32 or has_host_bits(address, length):
            return
        if body[0] == SET:
            self.set_network(address, length, number_in(body, 6, 2))
        else:
            self.withdraw_network(address, length)
