"""The step of an OSPF router."""

from dataclasses import dataclass, field, replace

from ...nets import mask_of, route_line
from ..routing import MAX_NETWORKS, Routing
from . import wire
from .image import image, read_into
from .lsa import MAX_AGE, POINT_TO_POINT, ROUTER_LSA, STUB, encode_links, newer
from .lsdb import Lsdb
from .receive import IS_ACKNOWLEDGED, receive
from .routes import routes

RETRANSMIT, REFRESH, MIN_INTERVAL = 5, 1800, 5
MOST_BYTES, UPDATE_HEAD = 1400, 28
DOWN, INIT, FULL = range(3)
STATE_WORDS = {INIT: b"init", FULL: b"full"}


@dataclass
class Port:
    """A port's neighbour; `list` has the tick of the last sending for each LSA on it."""

    state: int = DOWN
    id: int = 0
    heard: int = 0
    list: dict = field(default_factory=dict)

    def fork(self):
        """An equal port that changes by itself."""
        return replace(self, list=dict(self.list))

    def take_down(self):
        """No neighbour is known any more."""
        self.state, self.id, self.heard, self.list = DOWN, 0, 0, {}


class Ospf(Routing):
    """An OSPF router; `originated` is the tick of the last origination, or None.

    `judged` has the LSAs of the Update that came last, each with its verdict and why it was discarded.
    """

    def __init__(self, number, costs, prefixes):
        super().__init__(number, costs)
        self.id, self.originated, self.judged = number + 1, None, []
        self.networks = {(address, length): cost for address, length, cost in prefixes}
        self.ports = [Port() for _ in costs]
        self.database = Lsdb()

    def fork(self):
        """An equal router that changes by itself."""
        other = Ospf(self.number, self.costs, [])
        other.now, other.originated = self.now, self.originated
        other.networks = dict(self.networks)
        other.ports = [port.fork() for port in self.ports]
        other.database = self.database.fork()
        return other

    def image(self):
        """Its state in bytes."""
        return image(self)

    def show(self):
        """The lines that it shows: its neighbours by port, then its routes."""
        lines = [b"neighbour %d %s %d" % (number, STATE_WORDS[port.state], port.id)
                 for number, port in enumerate(self.ports) if port.state != DOWN]
        for network, (cost, is_own, ports) in sorted(routes(self).items()):
            ways = [b"own"] * is_own + [b"%d" % port for port in sorted(ports)]
            lines.append(route_line(network, cost, ways))
        return lines

    @classmethod
    def of_image(cls, raw):
        """The router whose image these bytes are; raises `ValueError` where they are none."""
        router = cls(0, [], [])
        read_into(router, raw)
        return router

    @staticmethod
    def new_port():
        """A port without a neighbour."""
        return Port()

    # -- sending

    def full(self):
        """The ports that are up and have a full neighbour."""
        return [port for port in self.up if self.ports[port].state == FULL]

    def outgoing(self, key):
        """The LSA as it goes out in an Update, noted as sent now."""
        kept, age = self.database.get(key), self.database.age(key, self.now)
        kept.sent = self.now
        return kept.lsa.at_age(min(MAX_AGE, age + 1))

    def send_one(self, port, key):
        """One LSA goes out on a port."""
        self.out.append((port, wire.encode_update(self.id, [self.outgoing(key)])))

    def send_all(self, port, keys):
        """Several LSAs go out on a port, in order, as many in a packet as it holds."""
        packets, size = [], MOST_BYTES
        for key in sorted(keys):
            lsa = self.outgoing(key)
            if size + lsa.head.length > MOST_BYTES:
                packets.append([])
                size = UPDATE_HEAD
            packets[-1].append(lsa)
            size += lsa.head.length
        self.out += [(port, wire.encode_update(self.id, lsas)) for lsas in packets]

    def flood(self, key, but=None):
        """Floods an LSA to all full neighbours, but that of one port (13.3)."""
        for port in self.full():
            if port != but:
                self.ports[port].list[key] = self.now
                self.send_one(port, key)

    def is_listed(self, key):
        """Whether an LSA is on a list."""
        return any(key in port.list for port in self.ports)

    def off_all_lists(self, key):
        """Takes an LSA off all lists."""
        for port in self.ports:
            port.list.pop(key, None)

    # -- ticks

    def tick(self):
        """Dead neighbours, LSAs that age out, Hellos, and what is sent again."""
        for port in self.ports:
            if port.state != DOWN and self.now - port.heard >= wire.DEAD_INTERVAL:
                port.take_down()
        for key in self.database.age_out(self.now):
            self.flood(key)
        if self.now % wire.HELLO_INTERVAL == 0:
            for port in self.up:
                self.send_hello(port)
        for port in self.full():
            self.retransmit(port)

    def send_hello(self, port):
        """A Hello goes out on a port."""
        neighbour = self.ports[port]
        known = [] if neighbour.state == DOWN else [neighbour.id]
        self.out.append((port, wire.encode_hello(self.id, known)))

    def retransmit(self, port):
        """Sends again what wasn't acknowledged on a port (13.6)."""
        listed = self.ports[port].list
        due = [key for key in listed if self.now - listed[key] >= RETRANSMIT]
        self.send_all(port, due)
        for key in due:
            listed[key] = self.now

    # -- ports and commands

    def port_down(self, port):
        """The neighbour is lost."""
        self.ports[port].take_down()

    def port_up(self, port):
        """Nothing: the next Hello comes by the clock."""

    def set_network(self, address, length, cost):
        """Sets an own network."""
        is_room = (address, length) in self.networks or len(self.networks) < MAX_NETWORKS
        if cost > 0 and is_room:
            self.networks[address, length] = cost

    def withdraw_network(self, address, length):
        """Withdraws an own network."""
        self.networks.pop((address, length), None)

    # -- messages

    def message(self, port, body):
        """A message comes on a port."""
        packet = wire.decode(body)
        if packet is None or packet.area != 0:
            return
        neighbour = self.ports[port]
        if packet.kind == wire.HELLO:
            self.hello(port, packet.router, packet.body)
        elif neighbour.state != FULL or neighbour.id != packet.router:
            return
        elif packet.kind == wire.ACK:
            self.acknowledged(port, packet.body)
        else:
            self.update(port, packet.body)

    def hello(self, port, router, hello):
        """A Hello comes (10.5)."""
        if self.hello_fault(router, hello) is not None:
            return
        neighbour = self.ports[port]
        if neighbour.state != DOWN and neighbour.id != router:
            neighbour.take_down()
        neighbour.id, neighbour.heard = router, self.now
        if self.id not in hello.neighbours:
            neighbour.state, neighbour.list = INIT, {}
        elif neighbour.state != FULL:
            neighbour.state = FULL
            neighbour.list = {key: self.now for key in self.database.map}
            self.send_all(port, self.database.map)

    def hello_fault(self, router, hello):
        """Why a Hello doesn't count, in words, or None."""
        if router in (0, self.id):
            return "it has the router's own id" if router else "its router id is 0"
        if not hello.options & wire.EXTERNAL_ROUTING:
            return "the E bit of its options isn't set"
        if hello.interval != wire.HELLO_INTERVAL:
            return "its interval isn't %d" % wire.HELLO_INTERVAL
        return None if hello.dead == wire.DEAD_INTERVAL else "its dead interval isn't %d" % wire.DEAD_INTERVAL

    def acknowledged(self, port, heads):
        """An Acknowledgement comes (13.7)."""
        for head in heads:
            key = head.key()
            is_kept = self.database.get(key) is not None
            if is_kept and newer(head, self.database.head_now(key, self.now)) == 0:
                self.ports[port].list.pop(key, None)

    def update(self, port, lsas):
        """An Update comes (13)."""
        self.judged = []
        for lsa in lsas:
            self.judged.append((lsa, *receive(self, port, lsa)))
        heads = [lsa.head for lsa, verdict, _ in self.judged if IS_ACKNOWLEDGED[verdict]]
        if heads:
            self.out.append((port, wire.encode_ack(self.id, heads)))

    # -- the end of a step

    def wanted_body(self):
        """The body that the own LSA ought to have (12.4.1)."""
        links = [(POINT_TO_POINT, self.ports[port].id, port + 1, self.costs[port]) for port in self.full()]
        links += [(STUB, address, mask_of(length), cost)
                  for (address, length), cost in sorted(self.networks.items())]
        return encode_links(links)

    def end_of_step(self):
        """The own LSA is originated where it must be (12.4), and what is gone is removed (14)."""
        body = self.wanted_body()
        if self.is_wanted(body) and self.is_due() and self.database.originate(self.id, body, self.now):
            self.originated = self.now
            key = (ROUTER_LSA, self.id, self.id)
            self.off_all_lists(key)
            self.flood(key)
        for key in self.database.at_max_age():
            if not self.is_listed(key):
                self.database.drop(key)

    def is_wanted(self, body):
        """Whether the own LSA isn't the one that it ought to be."""
        key = (ROUTER_LSA, self.id, self.id)
        kept = self.database.get(key)
        if kept is None or kept.foreign or kept.lsa.body != body:
            return True
        return self.database.age(key, self.now) >= REFRESH

    def is_due(self):
        """Whether the last origination is long enough ago."""
        return self.originated is None or self.now - self.originated >= MIN_INTERVAL
