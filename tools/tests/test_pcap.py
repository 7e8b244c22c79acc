"""tools/pcap: what tshark reads of captures of the examples and of generated runs."""

import struct
import subprocess
import tempfile
import unittest

from helping import example, example_names, generated, loaded, needs, tool
from library import internet, rowwords
from library.packets import ACKNOWLEDGEMENT, HELLO, MALFORMED, NORMAL_OPTIONS, UPDATE, Packet
from library.reading import Run, read_run
from model.events import MSG
from model.guests.ospf.lsa import ROUTER_LSA, links_of
from model.guests.ospf.wire import ones_sum
from model.guests.rip.wire import IP, ANY_FAMILY

pcap = loaded("pcap")
COMMENT = 0x100000
LEAST_ROUTER_LSA = 24
FIELDS = ("frame.comment", "_ws.malformed", "_ws.expert.severity", "frame.protocols", "frame.time_epoch",
          "frame.interface_name")
PROTOCOLS = {"ospf": "raw:ip:ospf", "rip": "raw:ip:udp:rip"}


def told_by_tshark(capture: bytes) -> list[list[str]]:
    """The fields of each packet of a capture, as tshark reads them."""
    with tempfile.NamedTemporaryFile(suffix=".pcapng") as file:
        file.write(capture)
        file.flush()
        command = ["tshark", "-r", file.name, "-o", "ip.check_checksum:TRUE", "-o", "udp.check_checksum:TRUE",
                   "-T", "fields"]
        for field in FIELDS:
            command += ["-e", field]
        done = subprocess.run(command, capture_output=True, check=True, text=True)
    return [line.split("\t") for line in done.stdout.split("\n")[:-1]]


def deserves_a_mark(packet: Packet) -> bool:
    """Whether a crafted packet has something at which tshark may take offence."""
    if packet.kind == MALFORMED:
        return True
    if packet.kind == HELLO:
        return packet.decoded.body.options != NORMAL_OPTIONS
    if packet.kind == UPDATE:
        return any(lsa.head.kind != ROUTER_LSA or links_of(lsa.body) is None for lsa in packet.decoded.body)
    if packet.kind == ACKNOWLEDGEMENT:
        return any(head.kind != ROUTER_LSA or head.length < LEAST_ROUTER_LSA for head in packet.decoded.body)
    if packet.protocol == "rip":
        return any(entry.family not in (IP, ANY_FAMILY) for entry in packet.decoded[1])
    return packet.protocol == "flood"


class Reading(unittest.TestCase):
    """tshark reads each packet, and nothing is malformed but what is crafted so."""

    def compare(self, name: str, run: Run, told: list[list[str]], alone: bool) -> None:
        """Compares what tshark tells of a run's packets with its rows.

        Interfaces are compared in captures that are alone: of several behind one another tshark 4.0 mixes them up.
        """
        rows = [row for row in run.rows if row.input == MSG]
        self.assertEqual(len(told), len(rows), name)
        for (comment, malformed, severity, protocols, time, interface), row in zip(told, rows):
            packet, where = rowwords.packet_of(run.network, row), "%s row %d" % (name, row.number)
            self.assertTrue(comment.startswith("row %d, line %d:" % (row.number, row.line)), where)
            if alone:
                self.assertEqual(interface, "%s:%d" % (run.network.names[row.router], row.port), where)
            self.assertEqual(round(float(time) * 10 ** 9), run.network.nanoseconds(run.moment(row)), where)
            if not deserves_a_mark(packet):
                self.assertEqual(protocols, PROTOCOLS[packet.protocol], where)
                self.assertEqual((malformed, severity), ("", str(COMMENT)), where + " " + packet.words)

    @needs("tshark", "tshark")
    def test_examples(self):
        """Each example, each capture by itself."""
        for name in example_names():
            run = read_run(example(name), need="trace")
            capture = tool("pcap", text=example(name))
            self.assertEqual((capture.returncode, capture.stderr), (0, b""), name)
            self.compare(name, run, told_by_tshark(capture.stdout), True)

    @needs("tshark", "tshark")
    def test_generated(self):
        """Runs of OSPF, RIP and flooding routers with crafted packets, all captures behind one another."""
        runs = [(name, run) for name, _, run in generated(30)]
        told = told_by_tshark(b"".join(pcap.capture(run) for _, run in runs))
        for name, run in runs:
            count = sum(row.input == MSG for row in run.rows)
            self.compare(name, run, told[:count], False)
            told = told[count:]
        self.assertEqual(told, [])


class Bytes(unittest.TestCase):
    """What is written, without tshark."""

    def test_checksums(self):
        """Both checksums are right, also of odd lengths and where the UDP sum is 0."""
        for body in (b"", b"\0", b"abc", b"\xff" * 252, bytes(range(200))):
            data = internet.datagram("rip", 3, 70_000, body)
            self.assertEqual(ones_sum(data[:20]), 0xFFFF)
            pseudo = data[12:20] + struct.pack(">HH", 17, len(data) - 20)
            self.assertEqual(ones_sum(pseudo + data[20:]), 0xFFFF)
        self.assertNotEqual(data[26:28], b"\0\0")

    def test_blocks(self):
        """The blocks are whole, and there are as many as ends of links and messages."""
        data = tool("pcap", text=example("six_routers")).stdout
        kinds = []
        while data:
            kind, size = struct.unpack_from("<II", data)
            self.assertEqual(data[size - 4:size], struct.pack("<I", size))
            kinds.append(kind)
            data = data[size:]
        self.assertEqual([kinds.count(kind) for kind in (0x0A0D0D0A, 1, 6)], [1, 14, 524])

    def test_bad_input(self):
        """A case without a trace, and what is no case."""
        done = tool("pcap", text=example("smallest", ".case"))
        self.assertEqual(done.returncode, 1)
        self.assertIn(b"no trace", done.stderr)
        self.assertEqual(tool("pcap", text=b"x").returncode, 1)
