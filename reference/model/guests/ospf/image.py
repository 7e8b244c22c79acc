"""The image of an OSPF router (docs/OSPF.md), both ways."""

from ...octets import Reader, packed
from .lsa import HEAD_SIZE, Lsa, decode_head
from .lsdb import Kept


def image(router):
    """Its state in bytes."""
    out = packed((router.number, 2), (router.now, 4), (plus_one(router.originated), 4))
    out += packed((len(router.networks), 2))
    for (address, length), cost in sorted(router.networks.items()):
        out += packed((address, 4), (length, 1), (cost, 2))
    out += packed((len(router.ports), 1))
    for port, cost in zip(router.ports, router.costs):
        out += packed((cost, 2)) + port_image(port)
    return out + database_image(router.database)


def plus_one(tick):
    """A tick plus 1, or 0 where there was none."""
    return 0 if tick is None else tick + 1


def port_image(port):
    """A port's neighbour and its list."""
    out = packed((port.state, 1), (port.id, 4), (port.heard, 4), (len(port.list), 2))
    for (kind, link_state_id, router), sent in sorted(port.list.items()):
        out += packed((kind, 1), (link_state_id, 4), (router, 4), (sent, 4))
    return out


def database_image(database):
    """All LSAs of a database."""
    out = packed((len(database.map), 2))
    for _, kept in sorted(database.map.items(), key=lambda item: item[0]):
        flags = kept.flooded + 2 * kept.foreign
        out += packed((kept.installed, 4), (flags, 1), (plus_one(kept.sent), 4)) + kept.lsa.encode()
    return out


def read_into(router, raw):
    """Sets the state of a router to the one of an image; raises `ValueError` where the bytes are no image."""
    reader = Reader(raw)
    router.number, router.now = reader.number(2), reader.number(4)
    router.id, router.originated = router.number + 1, less_one(reader.number(4))
    router.networks = {}
    for _ in range(reader.number(2)):
        address, length = reader.number(4), reader.number(1)
        router.networks[address, length] = reader.number(2)
    router.costs = []
    router.ports = router.ports[:0]
    for _ in range(reader.number(1)):
        router.costs.append(reader.number(2))
        router.ports.append(read_port(router.new_port(), reader))
    for _ in range(reader.number(2)):
        router.database.put(*read_kept(reader))
    reader.end()


def less_one(number):
    """The tick that `plus_one` made this number of."""
    return None if number == 0 else number - 1


def read_port(port, reader):
    """A port's neighbour and its list."""
    port.state, port.id, port.heard = reader.number(1), reader.number(4), reader.number(4)
    for _ in range(reader.number(2)):
        key = reader.number(1), reader.number(4), reader.number(4)
        port.list[key] = reader.number(4)
    return port


def read_kept(reader):
    """An LSA of the database with its name."""
    installed, flags, sent = reader.number(4), reader.number(1), less_one(reader.number(4))
    head = decode_head(reader.take(HEAD_SIZE))
    if head.length < HEAD_SIZE:
        raise ValueError("an LSA's length is below that of its header")
    lsa = Lsa(head, reader.take(head.length - HEAD_SIZE))
    return head.key(), Kept(lsa, installed, bool(flags & 1), sent, bool(flags & 2))
