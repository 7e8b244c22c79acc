"""Attacks: flooding routers give crafted bytes to the OSPF and RIP routers beside them."""

from model.case import MAX_BODY
from model.events import CMD
from model.guests.ospf.guest import FULL
from model.guests.ospf.wire import ACK, HELLO, UPDATE
from model.nets import ALL_BITS

from . import ospf_lsas, ospf_packets
from .rip_messages import rip_message

UPDATE_HEAD = 28


class Attacker:
    """Speaks to the OSPF router `victim` at its port `port` through the flooding router `by`."""

    def __init__(self, builder, by, victim, port):
        self.builder, self.rng = builder, builder.rng
        self.by, self.victim, self.port = by, victim, port
        self.count = len(builder.case.routers)
        self.id = self.rng.choice((by + 1, by + 1, self.count + 1, 0x80000000, ALL_BITS))
        self.sent = []

    def guest(self):
        """The victim as it stands."""
        return self.builder.guest(self.victim)

    def send(self, group, body):
        """Sends what a command can carry."""
        if 1 <= len(body) <= MAX_BODY:
            self.builder.inject(group, self.by, CMD, body=body)

    def act(self, group):
        """Keeps the adjacency up, mostly, and sends something."""
        neighbour = self.guest().ports[self.port]
        if neighbour.state != FULL or neighbour.id != self.id:
            if self.rng.random() < 0.7:
                self.hello(group)
        elif group - neighbour.heard >= self.rng.choice((10, 25, 38)) and self.rng.random() < 0.9:
            self.hello(group)
        acts = (self.update, self.ack, self.strange_hello, self.random_bytes, self.lying_packet, None)
        act = self.rng.choices(acts, (55, 20, 7, 4, 4, 10))[0]
        if act is not None:
            act(group)

    def packet(self, kind, body, wild=None):
        """A packet, mostly of the attacker's own id."""
        others = (self.victim + 1, 0, (self.id + 1) & ALL_BITS)
        router = self.id if self.rng.random() < 0.96 else self.rng.choice(others)
        if wild is None:
            wild = self.rng.random() < 0.05
        return ospf_packets.packet(self.rng, kind, router, body, wild)

    def hello(self, group):
        """A Hello that brings the adjacency up or keeps it."""
        neighbours = [self.victim + 1]
        if self.rng.random() < 0.3:
            neighbours = [ospf_lsas.some_id(self.rng, self.count), *neighbours]
        body = ospf_packets.hello_body(self.rng, neighbours, False)
        self.send(group, ospf_packets.packet(self.rng, HELLO, self.id, body))

    def strange_hello(self, group):
        """A Hello with any neighbours, and often with other fields."""
        neighbours = [ospf_lsas.some_id(self.rng, self.count) for _ in range(self.rng.choice((0, 1, 2, 3, 51)))]
        body = ospf_packets.hello_body(self.rng, neighbours, self.rng.random() < 0.7)
        self.send(group, self.packet(HELLO, body))

    def random_bytes(self, group):
        """Bytes that are no packet."""
        self.send(group, self.rng.randbytes(self.rng.choice((1, 23, 24, 44, 255))))

    def kept_lsa(self, key):
        """An LSA of the victim's database as it is now."""
        guest = self.guest()
        return guest.database.get(key).lsa.at_age(guest.database.age(key, guest.now))

    def lsa(self):
        """An LSA near to one that is kept or was sent, or another one."""
        rng, kept, roll = self.rng, list(self.guest().database.map), self.rng.random()
        if roll < 0.55 and kept:
            lsa = ospf_lsas.variant(rng, self.kept_lsa(rng.choice(kept)), self.count)
        elif roll < 0.75 and self.sent:
            lsa = ospf_lsas.variant(rng, rng.choice(self.sent), self.count)
        else:
            lsa = ospf_lsas.fresh_lsa(rng, self.count, self.victim + 1)
        self.sent = (self.sent + [lsa])[-12:]
        return ospf_lsas.bad_sum(rng, lsa) if rng.random() < 0.06 else lsa

    def lsas(self):
        """LSAs that fit into a command, now and then two instances of one."""
        chosen = []
        for _ in range(self.rng.choice((1, 1, 1, 2, 3, 8))):
            chosen.append(self.lsa())
            if self.rng.random() < 0.15:
                chosen.append(ospf_lsas.variant(self.rng, chosen[-1], self.count))
        while sum(len(lsa.encode()) for lsa in chosen) > MAX_BODY - UPDATE_HEAD:
            chosen.pop()
        return chosen

    def update_of(self, group, lsas):
        """An Update with these LSAs."""
        self.send(group, self.packet(UPDATE, ospf_packets.update_body(self.rng, lsas)))

    def update(self, group):
        """An Update, now and then another one in the same tick."""
        chosen = [] if self.rng.random() < 0.01 else self.lsas()
        self.update_of(group, chosen)
        if chosen and self.rng.random() < 0.2:
            self.update_of(group, [ospf_lsas.variant(self.rng, chosen[0], self.count)])

    def ack(self, group):
        """An Acknowledgement of what is on the list, of other LSAs and of other instances."""
        rng, heads = self.rng, []
        listed, kept = list(self.guest().ports[self.port].list), list(self.guest().database.map)
        for _ in range(rng.choice((0, 1, 1, 2, 4))):
            keys = listed if listed and rng.random() < 0.8 else kept
            if keys:
                lsa = self.kept_lsa(rng.choice(keys))
                heads.append((ospf_lsas.variant(rng, lsa, self.count) if rng.random() < 0.5 else lsa).head)
        if rng.random() < 0.1:
            heads.append(ospf_lsas.fresh_lsa(rng, self.count, self.victim + 1).head)
        self.send(group, self.packet(ACK, ospf_packets.ack_body(rng, heads)))

    def lying_packet(self, group):
        """A body of one kind in a packet of another, and a fault."""
        bodies = (ospf_packets.update_body(self.rng, self.lsas()),
                  ospf_packets.hello_body(self.rng, [self.victim + 1], False),
                  ospf_packets.ack_body(self.rng, [self.lsa().head]))
        self.send(group, self.packet(self.rng.choice((1, 4, 5, 2, 3)), self.rng.choice(bodies), True))


def neighbours(builder, kind):
    """(flooding router, router of the kind, its port) for each link between two such."""
    found = []
    for by, router in enumerate(builder.case.routers):
        if router.kind == b"flood":
            found += [(by, far, far_port) for far, far_port, _ in builder.case.ends(by)
                      if builder.kind(far) == kind]
    return found


def attackers(builder):
    """An attacker for each link between a flooding and an OSPF router."""
    return [Attacker(builder, *one) for one in neighbours(builder, b"ospf")]


def attack(builder, rate, chaos):
    """Runs the case under attacks at a rate, and with disturbances."""
    found, rng = attackers(builder), builder.rng
    to_rip = sorted({by for by, _, _ in neighbours(builder, b"rip")})

    def each_group(group):
        for attacker in found:
            while rng.random() < rate:
                attacker.act(group)
        for by in to_rip:
            while rng.random() < rate / 2:
                builder.inject(group, by, CMD, body=rip_message(rng))
        builder.disturb(group, chaos)
    return builder.go(each_group)
