#!/usr/bin/env python3
"""Plays tables of turns (tests/guest_turns/README.md) with the model's guests, and compares: tables.py FILE..

Every line under a turn is the model's.
"""

import sys

sys.dont_write_bytecode = True

from model.events import CMD, DOWN, MSG, TICK, UP  # noqa: E402
from model.guests.flood import Flood  # noqa: E402
from model.guests.ospf.guest import Ospf  # noqa: E402
from model.guests.rip.guest import Rip  # noqa: E402
from model.nets import has_host_bits  # noqa: E402

STATES = ("Down", "Init", "Full")
SORTS = {Flood: 0, Ospf: 1, Rip: 2}


class Router:
    """A guest and the mask of its up ports."""

    def __init__(self, guest, mask=0xFFFF):
        self.guest, self.mask = guest, mask

    def turn(self, entry):
        """Takes an input, and gives the lines under the turn."""
        before = self.guest.image()
        lines = ["> %d %s" % (port, body.hex()) for port, body in self.guest.step(self.mask, entry)]
        if isinstance(self.guest, Ospf):
            lines.append(ospf_line(self.guest))
        if self.guest.image() == before:
            lines.append("= unchanged")
        return lines


def ospf_line(guest):
    """The states of the neighbours, how many LSAs there are, and how many entries the lists have."""
    states = "".join(" " + STATES[port.state] for port in guest.ports)
    listed = sum(len(port.list) for port in guest.ports)
    return "=%s, lsas %d, listed %d" % (states, len(guest.database.map), listed)


def guest_of(kind, fields):
    """The guest of a `router` line."""
    if kind == "flood":
        return Flood()
    number, costs, prefixes = int(fields.pop(0)), [], []
    while fields:
        field = fields.pop(0)
        if field == "prefix":
            network, cost = fields.pop(0), int(fields.pop(0))
            address, length = network.split("/")
            prefixes.append((int.from_bytes(bytes(map(int, address.split("."))), "big"), int(length), cost))
        elif field != "costs":
            costs.append(int(field))
    if kind == "rip":
        return Rip(number, costs, prefixes)
    guest = Ospf(number, costs, [])
    for address, length, cost in prefixes:
        if not has_host_bits(address, length):
            guest.set_network(address, length, cost)
    return guest


def input_of(word, fields):
    """The input of a turn."""
    numbered = {"tick": TICK, "down": DOWN, "up": UP, "msg": MSG}
    number = int(fields.pop(0)) if word in numbered else 0
    return numbered.get(word, CMD), number, bytes.fromhex(fields[0] if fields else "")


class Table:
    """The routers of a table."""

    def __init__(self):
        self.routers, self.at = {}, None

    def line(self, line):
        """What happens at a line."""
        word, *fields = line.split(" ")
        if word in ("router", "fork"):
            made = Router(self.at.guest.fork(), self.at.mask) if word == "fork" else Router(guest_of(fields[1], fields[2:]))
            self.routers[fields[0]] = self.at = made
        elif word == "at":
            self.at = self.routers[fields[0]]
        elif word == "same":
            one, two = self.at.guest, self.routers[fields[0]].guest
            return ["= same" if type(one) is type(two) and one.image() == two.image() else "= different"]
        elif word == "ports":
            self.at.mask = int(fields[0], 16)
        elif word == "sort":
            return ["= sort %d" % SORTS[type(self.at.guest)]]
        elif word == "image":
            return ["= " + self.at.guest.image().hex()]
        elif word == "show":
            return ["| " + line.decode() for line in self.at.guest.show()]
        else:
            return self.at.turn(input_of(word, fields))
        return []


def played(text):
    """The table with what happens at each line."""
    table, lines = Table(), []
    for line in text.splitlines():
        if line[:1] in ("", "#"):
            lines.append(line)
        elif line[0] not in ">=|":
            lines += [line, *table.line(line)]
    return "\n".join(lines) + "\n"


def main():
    """Compares each table; the status is 1 at the first that the model plays otherwise."""
    for name in sys.argv[1:]:
        with open(name, encoding="ascii") as file:
            text = file.read()
        ours = played(text)
        for number, (line, wanted) in enumerate(zip(text.splitlines(), ours.splitlines()), 1):
            if line != wanted:
                print("%s:%d: the model has: %s" % (name, number, wanted))
                return 1
        if text != ours:
            print("%s: one of both is longer" % name)
            return 1
    return 0


if __name__ == "__main__":
    sys.exit(main())
