"""The step of a RIP router, and its image."""

from dataclasses import dataclass, replace

from ...nets import mask_of, route_line
from ...octets import Reader, packed
from ..routing import MAX_NETWORKS, Routing
from . import wire
from .wire import INFINITY, Entry

MOST_ROUTES = 65_535
TIMEOUT, COLLECTION, REGULAR = 180, 120, 30
OWN = 255


@dataclass
class Held:
    """What is held of a route; `via` is None where the network is the router's own."""

    tag: int
    metric: int
    via: int | None
    time: int
    changed: bool


class Rip(Routing):
    """A RIP router; `table` is a map from (address, length)."""

    def __init__(self, number, costs, prefixes):
        super().__init__(number, [min(cost, INFINITY) for cost in costs])
        self.table = {(address, length): Held(0, cost, None, 0, False)
                      for address, length, cost in prefixes}

    def fork(self):
        """An equal router that changes by itself."""
        other = Rip(self.number, self.costs, [])
        other.now = self.now
        other.table = {network: replace(held) for network, held in self.table.items()}
        return other

    def end_of_step(self):
        """The triggered update (3.10.1)."""
        if any(held.changed for held in self.table.values()):
            self.update_all(True)

    def update_all(self, changed_alone):
        """An update on each port that is up; then no route is marked as changed."""
        for port in self.up:
            self.update(port, changed_alone)
        for held in self.table.values():
            held.changed = False

    def update(self, port, changed_alone):
        """Puts out all routes, or those that changed, with poisoned reverse (3.4.3)."""
        entries = []
        for (address, length), held in self.routes():
            if held.changed or not changed_alone:
                metric = INFINITY if held.via == port else held.metric
                entries.append(Entry(wire.IP, held.tag, address, mask_of(length), 0, metric))
        for place in range(0, len(entries), wire.MOST_ENTRIES):
            some = entries[place:place + wire.MOST_ENTRIES]
            self.out.append((port, wire.encode(wire.RESPONSE, some)))

    def routes(self):
        """The routes in ascending order of their networks."""
        return sorted(self.table.items(), key=lambda item: item[0])

    # -- timers (3.8), ports and commands

    def tick(self):
        """The timers, the first request, and the regular update."""
        for held in self.table.values():
            if held.via is not None and held.metric < INFINITY and self.now - held.time >= TIMEOUT:
                self.begin_deletion(held)
        self.table = {network: held for network, held in self.table.items()
                      if held.metric < INFINITY or self.now - held.time < COLLECTION}
        if self.now == 0:
            for port in self.up:
                self.port_up(port)
        if self.now % REGULAR == self.number % REGULAR:
            self.update_all(False)

    def begin_deletion(self, held):
        """A route is unreachable from now on; its tag stays."""
        held.metric, held.time, held.changed = INFINITY, self.now, True

    def port_down(self, port):
        """The routes by the port are lost."""
        for held in self.table.values():
            if held.via == port and held.metric < INFINITY:
                self.begin_deletion(held)

    def port_up(self, port):
        """Asks for the whole table."""
        self.out.append((port, wire.whole_table_request()))

    def set_network(self, address, length, metric):
        """Sets an own network."""
        if not 1 <= metric < INFINITY:
            return
        held = self.table.get((address, length))
        is_own = held is not None and held.via is None
        if not (is_own and held.metric < INFINITY) and self.own_count() >= MAX_NETWORKS:
            return
        if held is None and len(self.table) >= MOST_ROUTES:
            return
        changed = held.changed if is_own and held.metric == metric else True
        self.table[address, length] = Held(0, metric, None, self.now, changed)

    def own_count(self):
        """How many own networks can be reached."""
        return sum(held.via is None and held.metric < INFINITY for held in self.table.values())

    def withdraw_network(self, address, length):
        """Withdraws an own network."""
        held = self.table.get((address, length))
        if held is not None and held.via is None and held.metric < INFINITY:
            self.begin_deletion(held)

    # -- messages (3.9)

    def message(self, port, body):
        """A message comes on a port."""
        decoded = wire.decode(body)
        if decoded is None or decoded[1][0].family == wire.AUTHENTICATION:
            return
        command, entries = decoded
        if command == wire.REQUEST:
            self.request(port, entries)
        else:
            for entry in entries:
                if entry.is_of_interest():
                    self.response(port, entry)

    def request(self, port, entries):
        """A request for the whole table, or for entries (3.9.1)."""
        first = entries[0]
        if len(entries) == 1 and first.family == wire.ANY_FAMILY and first.metric == INFINITY:
            self.update(port, False)
            return
        for entry in entries:
            held = self.table.get(entry.network())
            entry.metric = INFINITY if held is None else held.metric
        self.out.append((port, wire.encode(wire.RESPONSE, entries)))

    def response(self, port, entry):
        """An entry of a response that is looked at (3.9.2)."""
        network, metric = entry.network(), min(entry.metric + self.costs[port], INFINITY)
        held = self.table.get(network)
        heard = Held(entry.tag, metric, port, self.now, True)
        if held is None:
            if metric < INFINITY and len(self.table) < MOST_ROUTES:
                self.table[network] = heard
        elif held.via is None and held.metric < INFINITY:
            pass
        elif held.via != port:
            if metric < held.metric:
                self.table[network] = heard
        elif metric == held.metric:
            held.time = self.now if metric < INFINITY else held.time
        elif metric < INFINITY:
            self.table[network] = heard
        else:
            self.begin_deletion(held)

    def image(self):
        """Its state in bytes."""
        out = packed((self.number, 2), (self.now, 4), (len(self.costs), 1))
        out += bytes(self.costs) + packed((len(self.table), 2))
        for (address, length), held in self.routes():
            via = OWN if held.via is None else held.via
            out += packed((address, 4), (length, 1), (held.tag, 2), (held.metric, 1),
                          (via, 1), (held.time, 4), (held.changed, 1))
        return out

    def show(self):
        """The lines that it shows: one for each route, also one that is unreachable."""
        return [route_line(network, held.metric, [b"own" if held.via is None else b"%d" % held.via])
                for network, held in self.routes()]

    @classmethod
    def of_image(cls, raw):
        """The router whose image these bytes are; raises `ValueError` where they are none."""
        reader = Reader(raw)
        number, now = reader.number(2), reader.number(4)
        router = cls(number, list(reader.take(reader.number(1))), [])
        router.now = now
        for _ in range(reader.number(2)):
            network = reader.number(4), reader.number(1)
            tag, metric, via = reader.number(2), reader.number(1), reader.number(1)
            time, changed = reader.number(4), bool(reader.number(1))
            router.table[network] = Held(tag, metric, None if via == OWN else via, time, changed)
        reader.end()
        return router
