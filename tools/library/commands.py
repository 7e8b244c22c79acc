"""Commands and links as words, both ways.

The commands of OSPF and RIP routers (docs/OSPF.md and docs/RIP.md, "Command") are `set A.B.C.D/LEN cost N` and
`withdraw A.B.C.D/LEN`. A link that fails is said as a link, `down a b`, and becomes the externals of both its ends.
"""

from model.events import CMD, DOWN, UP
from model.nets import has_host_bits, net_text
from model.guests.routing import SET, WITHDRAW
from model.octets import number as number_in
from model.octets import packed

from .network import Network
from .tool import BadInput

MAX_LENGTH, MAX_NUMBER = 32, 65_535


def net(address: int, length: int) -> str:
    """`A.B.C.D/LEN`."""
    return net_text(address, length).decode()


def dotted(address: int) -> str:
    """`A.B.C.D`."""
    return "%d.%d.%d.%d" % tuple(address.to_bytes(4, "big"))


def command_words(body: bytes, kind: str) -> str:
    """What a command's bytes say to a router of a kind: `set 10.0.0.0/8 cost 3`, or the bytes and why it is nothing."""
    if kind == "flood":
        return "flood " + body.hex()
    fault = command_fault(body)
    if fault is not None:
        return "%s (no command: %s)" % (body.hex(), fault)
    where = net(number_in(body, 1, 4), body[5])
    if body[0] == WITHDRAW:
        return "withdraw " + where
    return "set %s %s %d" % (where, "metric" if kind == "rip" else "cost", number_in(body, 6, 2))


def command_fault(body: bytes) -> str | None:
    """Why the bytes are no command of an OSPF or RIP router, or None. Costs and how many networks aren't judged."""
    if body[:1] not in (bytes([SET]), bytes([WITHDRAW])):
        return "the first byte is neither 01, set, nor 02, withdraw"
    size = 8 if body[0] == SET else 6
    if len(body) != size:
        return "%d bytes in place of %d" % (len(body), size)
    if body[5] > MAX_LENGTH:
        return "the length %d is above %d" % (body[5], MAX_LENGTH)
    return "the address has bits past its length" if has_host_bits(number_in(body, 1, 4), body[5]) else None


def read_net(text: str) -> tuple[int, int]:
    """The address and length that `A.B.C.D/LEN` says; raises `BadInput`."""
    address, slash, length = text.partition("/")
    parts = address.split(".")
    if not slash or len(parts) != 4 or not all(part.isascii() and part.isdigit() for part in (*parts, length)):
        raise BadInput("a network is A.B.C.D/LEN, but this is %s" % text)
    if max(map(int, parts)) > 255 or int(length) > MAX_LENGTH:
        raise BadInput("a byte of an address is at most 255 and a length at most 32: %s" % text)
    value = int.from_bytes(bytes(map(int, parts)), "big")
    if has_host_bits(value, int(length)):
        raise BadInput("the address has bits past its length: %s" % text)
    return value, int(length)


def command_bytes(words: list[str]) -> bytes:
    """The bytes of `set A.B.C.D/LEN cost N` (or `metric N`, or just `N`) and `withdraw A.B.C.D/LEN`.

    Raises `BadInput` for anything else.
    """
    if len(words) == 2 and words[0] == "withdraw":
        address, length = read_net(words[1])
        return packed((WITHDRAW, 1), (address, 4), (length, 1))
    named = len(words) == 4 and words[2] in ("cost", "metric")
    if words[:1] == ["set"] and (len(words) == 3 or named):
        address, length = read_net(words[1])
        cost = words[-1]
        if not (cost.isascii() and cost.isdigit()) or not 1 <= int(cost) <= MAX_NUMBER:
            raise BadInput("a cost is a number from 1 to %d: %s" % (MAX_NUMBER, cost))
        return packed((SET, 1), (address, 4), (length, 1), (int(cost), 2))
    raise BadInput("a command is set A.B.C.D/LEN cost N, or withdraw A.B.C.D/LEN: %s" % " ".join(words))


def link_externals(network: Network, word: str, one: str, other: str, which: int | None = None) -> list[tuple]:
    """The (router, input) pairs of both ends of a link that goes `down` or `up`, each as `model.events` has inputs.

    `which` picks one of several links between the two, from 1. Raises `BadInput`.
    """
    ends = [network.number(one), network.number(other)]
    for name, router in zip((one, other), ends):
        if router is None:
            raise BadInput("no router is called %s" % name)
    ports = network.ports_to(*ends)
    if not ports:
        raise BadInput("no link is between %s and %s" % (one, other))
    if which is None and len(ports) > 1:
        raise BadInput("%d links are between %s and %s: say which, from 1" % (len(ports), one, other))
    chosen = 1 if which is None else which
    if not 1 <= chosen <= len(ports):
        raise BadInput("there is no link %d between %s and %s; they are numbered from 1 to %d" % (
            chosen, one, other, len(ports)))
    port = ports[chosen - 1]
    kind = DOWN if word == "down" else UP
    return [(ends[0], (kind, port, b"")), (ends[1], (kind, network.ends[ends[0]][port].port, b""))]


def as_command(body: bytes) -> tuple:
    """The input of a command's bytes."""
    return CMD, 0, body
