"""The case in which messages of real routers are played to one of ours.

Each sender is a flooding router with a link to ours, and each of its messages a command of it: it puts the bytes out as
they are. A flooding router puts out each body once, so a body that comes again must differ from the one before. It does
in bytes that no router looks at: in OSPF the authentication field of a packet without authentication (RFC 2328,
appendix D.3), in RIP the two bytes behind the version (RFC 2453, section 4).
"""

from dataclasses import dataclass, field, replace

from library.commands import dotted
from library.tool import BadInput
from model.case import MAX_BODY, MAX_GROUPS, MAX_PORTS, Case, External, Router
from model.events import CMD
from model.guests.ospf import wire as ospf
from model.guests.ospf.lsa import HEAD_SIZE, LINK, POINT_TO_POINT, ROUTER_LSA, Lsa, fletcher_set, links_of
from model.guests.rip import wire as rip
from model.octets import packed

from .frames import Message

OURS = b"ours"
CHECKSUM, AUTHENTICATION = 12, 16
# In a router-LSA's body: the first link, and within a link the number of its TOS metrics (RFC 2328, A.4.2).
LINKS, METRICS = 4, 9
OSPF_TYPES = {2: "Database Description", 3: "Link State Request"}
MOST_ENTRIES = (MAX_BODY - 4) // 20
UPDATE_HEAD = ospf.PACKET_HEAD + 4


@dataclass(frozen=True)
class Wishes:
    """What the command line asks for; delay and period in moments, `place_of` a router id or None."""

    period: int
    delay: int
    cost: int
    tail: int
    place_of: int | None = None
    splits: bool = False
    prefixes: tuple[tuple[int, int, int], ...] = ()


@dataclass
class Playback:
    """The messages on their way to a case, and what is noted of them."""

    wishes: Wishes
    protocol: str
    peers: dict[str, int] = field(default_factory=dict)
    feed: list[External] = field(default_factory=list)
    sent: set[tuple[int, bytes]] = field(default_factory=set)
    notes: list[str] = field(default_factory=list)
    listed: set[int] = field(default_factory=set)
    count: int = 0
    our_id: int = 1

    def note(self, message: Message, words: str) -> None:
        """Notes what became of a message."""
        self.notes.append(f"packet {message.number} from {message.sender}: {words}")


def case_of(messages: list[Message], wishes: Wishes) -> tuple[Case, list[str]]:
    """The case, and notes of what wasn't taken as it came."""
    protocols = sorted({message.protocol for message in messages})
    if len(protocols) != 1:
        raise BadInput("the capture has no OSPF or RIP packet" if not protocols else
                       "the capture has OSPF and RIP packets; --kind says which are to be played")
    play = Playback(wishes, protocols[0])
    play.our_id = free_id(messages, wishes)
    start = min(message.time for message in messages)
    for message in messages:
        take(play, message, int(message.time - start))
    if not play.feed:
        raise BadInput("no packet could be taken: " + "; ".join(play.notes[:3]))
    note_neighbours(play)
    return built(play), play.notes


def free_id(messages: list[Message], wishes: Wishes) -> int:
    """The least router id that no sender has, from 1: a router passes over the Hellos of its own id."""
    packets = [ospf.decode(message.body) for message in messages if message.protocol == "ospf"]
    taken = {packet.router for packet in packets if packet is not None} - {wishes.place_of}
    return next(one for one in range(1, len(taken) + 2) if one not in taken)


def take(play: Playback, message: Message, group: int) -> None:
    """A message becomes commands of its sender's router, if it can."""
    reason = refusal(play, message, group)
    if reason is not None:
        play.note(message, reason + "; not taken")
        return
    body = placed(play, message) if message.protocol == "ospf" else message.body
    for part in parts(play, message, body):
        if message.sender not in play.peers:
            if len(play.peers) == MAX_PORTS:
                play.note(message, f"a 17th sender, and a router has at most {MAX_PORTS} ports; not taken")
                return
            play.peers[message.sender] = len(play.peers) + 1
        peer = play.peers[message.sender]
        last = play.feed[-1].group if play.feed else 0
        play.feed.append(External(max(group, last), peer, (CMD, 0, distinct(play, peer, message, part))))


def refusal(play: Playback, message: Message, group: int) -> str | None:
    """Why a message can't be taken, or None."""
    if group >= MAX_GROUPS:
        return f"{group} seconds after the first one, and a case has at most {MAX_GROUPS} groups"
    if message.protocol == "rip":
        fault = rip.fault(message.body)
        return None if fault is None else f"no RIP message that ours takes ({fault})"
    if len(message.body) >= 2 and message.body[1] in OSPF_TYPES:
        return f"a {OSPF_TYPES[message.body[1]]}, which ours doesn't know"
    packet = ospf.decode(message.body)
    if packet is None:
        return f"no OSPF packet that ours takes ({ospf.fault(message.body)})"
    if packet.area != 0:
        return f"of area {dotted(packet.area)}, and ours is in area 0"
    return "its sender's place is taken by ours" if packet.router == play.wishes.place_of else None


def placed(play: Playback, message: Message) -> bytes:
    """An OSPF packet in which ours is named where the router is whose place it takes: in Hellos and in LSAs' links."""
    packet, place_of = ospf.decode(message.body), play.wishes.place_of
    if packet.kind == ospf.HELLO:
        return placed_hello(play, message, packet.body)
    if packet.kind == ospf.UPDATE and place_of is not None:
        lsas = [relinked(lsa, place_of, play.our_id) for lsa in packet.body]
        if lsas != packet.body:
            play.note(message, f"links to {dotted(place_of)} are written as to ours, {dotted(play.our_id)}, with new "
                      "LS checksums")
            return ospf.encode_update(packet.router, lsas)
    return message.body


def placed_hello(play: Playback, message: Message, hello: ospf.Hello) -> bytes:
    """A Hello in which ours is listed where the router is whose place it takes."""
    if (hello.interval, hello.dead) != (ospf.HELLO_INTERVAL, ospf.DEAD_INTERVAL):
        play.note(message, f"a Hello with interval {hello.interval} and dead interval {hello.dead}; ours counts only "
                  f"{ospf.HELLO_INTERVAL} and {ospf.DEAD_INTERVAL}")
    play.listed.update(hello.neighbours)
    if play.wishes.place_of not in hello.neighbours:
        return message.body
    play.listed.add(play.our_id)
    play.note(message, f"neighbour {dotted(play.wishes.place_of)} is written as ours, {dotted(play.our_id)}")
    place = ospf.PACKET_HEAD + 20 + 4 * hello.neighbours.index(play.wishes.place_of)
    return with_checksum(message.body[:place] + packed((play.our_id, 4)) + message.body[place + 4:])


def relinked(lsa: Lsa, old: int, new: int) -> Lsa:
    """A router-LSA with its point-to-point links to one router turned to another, and the right LS checksum."""
    links = links_of(lsa.body) if lsa.head.kind == ROUTER_LSA else None
    if links is None or (POINT_TO_POINT, old) not in [link[:2] for link in links]:
        return lsa
    body, place = bytearray(lsa.body), LINKS
    for kind, link_id, _, _ in links:
        if (kind, link_id) == (POINT_TO_POINT, old):
            body[place:place + 4] = packed((new, 4))
        place += LINK.size + 4 * body[place + METRICS]
    return fletcher_set(Lsa(lsa.head, bytes(body)))


def with_checksum(body: bytes) -> bytes:
    """An OSPF packet with the right checksum."""
    bare = body[:CHECKSUM] + bytes(2) + body[CHECKSUM + 2:]
    return body[:CHECKSUM] + packed((ospf.checksum(bare), 2)) + body[CHECKSUM + 2:]


def parts(play: Playback, message: Message, body: bytes) -> list[bytes]:
    """The message, or, if it is longer than a command, its parts, each a message of its own."""
    if len(body) <= MAX_BODY:
        return [body]
    if not play.wishes.splits:
        play.note(message, f"{len(body)} bytes, and a command has at most {MAX_BODY}; not taken (--split makes several "
                  "of it)")
        return []
    made = rip_parts(body) if message.protocol == "rip" else ospf_parts(body)
    if not made or any(len(part) > MAX_BODY for part in made):
        play.note(message, f"{len(body)} bytes, and it can't be split into parts of {MAX_BODY}; not taken")
        return []
    play.note(message, f"{len(body)} bytes; it is sent as {len(made)} packets")
    return made


def rip_parts(body: bytes) -> list[bytes]:
    """A RIP message as several with fewer entries."""
    command, entries = rip.decode(body)
    return [rip.encode(command, entries[place:place + MOST_ENTRIES]) for place in range(0, len(entries), MOST_ENTRIES)]


def ospf_parts(body: bytes) -> list[bytes]:
    """An Update as one packet an LSA, an Acknowledgement as several with fewer headers; of a Hello nothing."""
    packet = ospf.decode(body)
    if packet.kind == ospf.UPDATE:
        return [ospf.encode_update(packet.router, [lsa]) for lsa in packet.body]
    if packet.kind == ospf.ACK:
        most = (MAX_BODY - ospf.PACKET_HEAD) // HEAD_SIZE
        return [ospf.encode_ack(packet.router, packet.body[place:place + most])
                for place in range(0, len(packet.body), most)]
    return []


def distinct(play: Playback, peer: int, message: Message, body: bytes) -> bytes:
    """The body, with a number in bytes that nobody looks at if the same was sent before; of RIP always."""
    play.count += 1
    if message.protocol == "rip":
        made = body[:2] + packed((play.count % 65_535 + 1, 2)) + body[4:]
    elif (peer, body) in play.sent:
        made = body[:AUTHENTICATION] + packed((play.count, 8)) + body[AUTHENTICATION + 8:]
    else:
        made = body
    play.sent.add((peer, made))
    return made


def note_neighbours(play: Playback) -> None:
    """Notes that ours will be nobody's full neighbour, if no Hello lists it."""
    if play.protocol == "ospf" and play.our_id not in play.listed:
        ids = ", ".join(dotted(one) for one in sorted(play.listed)) or "nobody"
        play.notes.append(f"no Hello lists ours ({dotted(play.our_id)}), so it will take no Update; the Hellos list "
                          f"{ids}; --as ID writes ours in the place of one of them")


def built(play: Playback) -> Case:
    """The case: a flooding router for each sender, and ours at the place that its id asks for."""
    wishes, ours = play.wishes, play.our_id - 1
    groups = min(MAX_GROUPS, play.feed[-1].group + 1 + wishes.tail)
    case = Case(wishes.period, groups, 0)
    names = [b"peer%d" % number for number in play.peers.values()]
    names += [b"spare%d" % number for number in range(len(names) + 1, play.our_id)]
    case.routers = [Router(name, b"flood") for name in names]
    case.routers.insert(ours, Router(OURS, play.protocol.encode(), list(wishes.prefixes)))
    for number in play.peers.values():
        case.add_link(ours, place_of(number, ours), wishes.delay, wishes.cost)
    case.feed = [replace(external, router=place_of(external.router, ours)) for external in play.feed]
    return case


def place_of(peer: int, ours: int) -> int:
    """The number of the router of a sender, which are counted from 1."""
    return peer - 1 if peer - 1 < ours else peer
