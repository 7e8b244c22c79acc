"""tools/capture: captures of the product's own packets, in several formats, played to a router again."""

import os
import struct
import unittest

from helping import TOOLS, example, lockstep, tool
from library import internet
from library.packets import packet
from library.reading import read_run
from library.routes import holdings_words
from library.states import guest_of
from model.events import CMD, MSG
from model.guests.ospf import wire
from model.guests.ospf.lsa import Head, Lsa

ETHERNET_HEAD = bytes(12) + b"\x08\x00"


def pcap(datagrams: list[tuple[float, bytes]], order: str = "<", link: int = 101) -> bytes:
    """A pcap file of IP packets with their times."""
    head = struct.pack(order + "IHHiIII", 0xA1B2C3D4, 2, 4, 0, 0, 65535, link)
    for time, data in datagrams:
        head += struct.pack(order + "IIII", int(time), round(time % 1 * 1e6), len(data), len(data)) + data
    return head


def ospf(router: int, number: int, body: bytes) -> bytes:
    """An OSPF packet of a router, within IP."""
    return internet.datagram("ospf", router, number, body)


def played(capture: bytes, *words: str):
    """The case, what was told, and the run of it by the model."""
    done = tool("capture", *words, text=capture)
    if done.returncode != 0:
        raise AssertionError(done.stderr.decode())
    return done.stdout, done.stderr.decode(), read_run(lockstep(done.stdout))


class Played(unittest.TestCase):
    """What a router sent is played to ours."""

    def test_ospf_pair(self):
        """The pair's second router is replaced by ours: it becomes full and learns the first one's network."""
        capture = tool("pcap", text=example("ospf_pair")).stdout
        _, told, run = played(capture, "--as", "0.0.0.2", "--prefix", "10.77.0.0/16")
        self.assertIn("neighbour 0.0.0.2 is written as ours, 0.0.0.2", told)
        ours = run.states[run.network.number("ours")]
        guest = guest_of(run.network, ours)
        self.assertEqual(holdings_words(run.network, ours.router, guest),
                         ["10.9.0.0/16 cost 2 via peer1", "10.77.0.0/16 cost 1 via own"])

    def test_no_neighbour(self):
        """If no Hello lists ours it is told, with the ids that they list."""
        hello = wire.encode_hello(0x0A000001, [0x0A000002])
        _, told, _ = played(pcap([(1.0, ospf(0, 0, hello))]))
        self.assertIn("no Hello lists ours (0.0.0.1)", told)
        self.assertIn("the Hellos list 10.0.0.2", told)

    def test_rip_pair(self):
        """Both routers of the RIP pair play to ours, which learns the network from the nearer one."""
        _, _, run = played(tool("pcap", text=example("rip_pair")).stdout, "--from", "192.0.2.1")
        guest = guest_of(run.network, run.states[0])
        self.assertEqual(holdings_words(run.network, 0, guest), ["10.9.0.0/16 metric 2 via peer1"])

    def test_formats(self):
        """Each capture format gives the same case, and times count from the first packet."""
        hello = wire.encode_hello(7, [])
        raw = [(5.25, ospf(0, 0, hello)), (15.5, ospf(0, 1, hello))]
        cases = {played(pcap(raw, order))[0] for order in "<>"}
        for link, head in ((1, ETHERNET_HEAD), (1, bytes(12) + b"\x81\x00\x00\x01\x08\x00"), (0, b"\x02\0\0\0"),
                           (108, b"\0\0\0\x02"), (113, bytes(14) + b"\x08\x00"), (276, b"\x08\x00" + bytes(18))):
            cases.add(played(pcap([(time, head + data) for time, data in raw], link=link))[0])
        self.assertEqual(len(cases), 1)
        self.assertIn(b"@10 peer1 cmd ", cases.pop())

    def test_cut_short(self):
        """Of a capture that ends within a packet, as of a tcpdump that was killed, the packets before it are played."""
        pair = tool("pcap", text=example("ospf_pair")).stdout
        hello = wire.encode_hello(7, [])
        for capture in (pcap([(5.25, ospf(0, 0, hello)), (15.5, ospf(0, 1, hello))]), pair):
            whole, _, _ = played(capture)
            for size in (1, 10, 60):
                case, told, _ = played(capture[:-size])
                self.assertIn("the capture ends within a packet, which is left out", told)
                self.assertEqual(case.count(b" cmd "), whole.count(b" cmd ") - 1)

    def test_bodies_that_come_again(self):
        """A Hello that comes again reaches ours again, and is the same packet to it."""
        hello = wire.encode_hello(7, [])
        _, _, run = played(pcap([(float(time), ospf(0, time, hello)) for time in (0, 10, 20)]))
        came = [row.body for row in run.rows if row.input == MSG and row.router == 0]
        self.assertEqual(len(came), 3)
        self.assertEqual(len(set(came)), 3)
        self.assertEqual(len({packet("ospf", body).words for body in came}), 1)

    def test_long_updates(self):
        """An Update above 255 bytes isn't taken, and with --split it is sent as several."""
        lsas = [Lsa(Head(1, 2, 1, n, n, 0x80000001, 0, 44), bytes(24)) for n in range(1, 9)]
        capture = pcap([(0.0, ospf(0, 0, wire.encode_hello(7, [1]))), (1.0, ospf(0, 1, wire.encode_update(7, lsas)))])
        case, told, _ = played(capture)
        self.assertIn("380 bytes, and a command has at most 255; not taken", told)
        self.assertEqual(case.count(b" cmd "), 1)
        case, told, run = played(capture, "--split")
        self.assertIn("it is sent as 8 packets", told)
        packets = [wire.decode(row.body) for row in run.rows if row.input == CMD]
        self.assertEqual([lsa for one in packets if one.kind == wire.UPDATE for lsa in one.body], lsas)

    def test_what_is_left_out(self):
        """Packets that ours doesn't know are told one by one."""
        described = wire.encode_packet(2, 7, bytes(8))
        far = wire.encode_packet(1, 7, bytes(20), area=5)
        broken = bytearray(wire.encode_hello(7, []))
        broken[30] ^= 1
        bodies = (wire.encode_hello(7, [1]), described, far, bytes(broken), wire.encode_hello(7, [1])[:30])
        _, told, run = played(pcap([(0.0, ospf(0, n, body)) for n, body in enumerate(bodies)]))
        for words in ("packet 2 from 192.0.2.1: a Database Description", "packet 3 from 192.0.2.1: of area 0.0.0.5",
                      "packet 4 from 192.0.2.1: no OSPF packet", "packet 5 from 192.0.2.1: no OSPF packet"):
            self.assertIn(words, told)
        self.assertEqual(sum(row.input == CMD for row in run.rows), 1)


class RealRouters(unittest.TestCase):
    """Captures of two FRR 8.4.4 routers, 1.1.1.1 and 2.2.2.2, on one link: ours plays the second one."""

    def holdings(self, name: str, *words: str) -> list[str]:
        """What ours ends with."""
        with open(os.path.join(TOOLS, "tests", "networks", name), "rb") as file:
            _, _, run = played(file.read(), *words)
        ours = run.network.number("ours")
        return holdings_words(run.network, ours, guest_of(run.network, run.states[ours]))

    def test_ospf(self):
        """Ours becomes full with FRR's ospfd and learns its networks."""
        self.assertEqual(self.holdings("frr_ospf.pcap", "--as", "2.2.2.2"),
                         ["10.0.12.0/24 cost 11 via peer1", "10.1.0.1/32 cost 1 via peer1"])

    def test_rip(self):
        """Ours learns the network of FRR's ripd."""
        self.assertEqual(self.holdings("frr_rip.pcap", "--from", "10.0.12.1"), ["10.1.0.0/24 metric 2 via peer1"])


class BadInputs(unittest.TestCase):
    """A bad input is told, and the status isn't 0."""

    def test_bad_inputs(self):
        """Each with a part of what is told."""
        good = pcap([(0.0, ospf(0, 0, wire.encode_hello(7, [])))])
        both = pcap([(0.0, ospf(0, 0, wire.encode_hello(7, []))), (0.0, internet.datagram("rip", 0, 0, bytes(24)))])
        cases = (((), b"", "neither pcap nor pcapng"), ((), good[:-5], "no OSPF or RIP"),
                 ((), pcap([]), "no OSPF or RIP"), ((), both, "--kind says"),
                 ((), pcap([(0.0, b"x")], link=9), "link type 9"),
                 (("--as", "x"), good, "A.B.C.D"), (("--delay", "0"), good, "--delay 0"),
                 (("--from", "1.2.3.4"), good, "no OSPF or RIP"))
        for words, text, told in cases:
            done = tool("capture", *words, text=text)
            self.assertEqual((done.returncode, told in done.stderr.decode()), (1, True), (told, done.stderr))


if __name__ == "__main__":
    unittest.main()
