"""The library of the tools: what is read, and what is refused."""

import random
import unittest

from helping import example, example_names, generated, lockstep, tool
from library import commands
from library.network import Network
from library.packets import packet
from library.reading import read_case, read_run
from library.replaying import differing_states, taken_rows
from library.routes import routes_of
from library.rowwords import row_words
from library.states import guest_of, guest_words
from library.tool import BadInput
from model import journal, trace
from model.events import CMD, DOWN, UP, input_text
from model.guests.ospf import wire as ospf
from model.guests.rip import wire as rip

CASE = (b"defined 1\nperiod 100\ngroups 2\nseed 0\nrouter a flood\nrouter b flood\nlink a b 1 1\n"
        b"feed\n@0 a cmd 41\nend\n")


class Reading(unittest.TestCase):
    """Cases, traces and journals."""

    def test_rows_are_the_text(self):
        """Rows and states written again are the text that was read."""
        for name in example_names():
            run = read_run(example(name))
            lines = [trace.row_line(run.case, row.event) for row in run.rows]
            written = b"trace\n" + b"".join(lines)
            self.assertTrue(run.trace_text.startswith(written), name)
            text = example(name).split(b"\n")
            for row in run.rows:
                self.assertEqual(text[row.line - 1] + b"\n", trace.row_line(run.case, row.event))
            for state in run.states:
                self.assertTrue(text[state.line - 1].endswith(state.image.hex().encode()))

    def test_refused(self):
        """Each way in which a trace can be wrong has its words and its line."""
        text = lockstep(CASE)
        for old, new, words in (
                (b"0 0 t ", b"0 0 q ", "line 12: a row is"), (b"0 0 t 0000", b"0 0 t 000", "line 12: a row is"),
                (b" a tick", b" c tick", "line 12: the case has no such router"),
                (b"b msg 0 41", b"b msg 7 41", "no such input"), (b"b msg 0 41", b"b msg 0 4", "no such input"),
                (b"end trace 6", b"end trace 7", 'line 20: "end trace 7", but the trace has 6 rows'),
                (b"state a 1", b"state z 1", "a state is"), (b"end trace 6\n", b"", "no last line"),
                (b"end trace 6\n", b"end trace 6\nx\n", "a trace or a journal may be here"),
                (b"end trace 6\n", b"end trace 6", "cut short"), (b"defined 1\n", b"", "begins with no case"),
                (b"end trace 6\n", b"end trace 6\njournal\nhandle x\n", "is no line of a journal")):
            with self.assertRaises(BadInput, msg=words) as caught:
                self.assertIn(old, text)
                read_run(text.replace(old, new, 1))
            self.assertIn(words, str(caught.exception))
        with self.assertRaises(BadInput):
            read_run(CASE, need="trace")

    def test_journal(self):
        """A journal behind a case and behind its trace."""
        case = read_case(CASE)[0]
        steps = [("inject", case.feed[0]), ("handle", 0)]
        section = journal.write_journal(case, steps)
        self.assertEqual(read_run(CASE + section, need="journal").steps, steps)
        self.assertEqual(read_run(lockstep(CASE) + section).steps, steps)


class Network_(unittest.TestCase):
    """Names, neighbours and time."""

    def test_time(self):
        """Seconds are exact if the period is a power of ten, and different moments have different nanoseconds."""
        case = read_case(CASE)[0]
        for period, moment, seconds in ((1, 7, "7"), (10, 25, "2.5"), (100, 110, "1.10"), (1000, 1020, "1.020"),
                                        (3, 4, "1.333333"), (1_000_000, 1, "0.000001")):
            case.period = period
            self.assertEqual(Network(case).seconds(moment), seconds)
        case.period = 999_983
        times = [Network(case).nanoseconds(moment) for moment in range(999_000, 1_001_000)]
        self.assertEqual(len(set(times)), len(times))

    def test_links(self):
        """A link that fails becomes the externals of both its ends."""
        network = read_run(example("six_routers")).network
        self.assertEqual(commands.link_externals(network, "down", "a", "d"), [(0, (DOWN, 1, b"")), (3, (DOWN, 1, b""))])
        self.assertEqual(commands.link_externals(network, "up", "d", "a"), [(3, (UP, 1, b"")), (0, (UP, 1, b""))])
        for one, other, which in (("a", "f", None), ("a", "x", None), ("a", "d", 2), ("a", "d", 0)):
            with self.assertRaises(BadInput):
                commands.link_externals(network, "down", one, other, which)


class Words(unittest.TestCase):
    """Commands, packets and states."""

    def test_commands(self):
        """Bytes and words, both ways."""
        for words, raw in (("set 10.0.0.0/8 cost 3", "010a000000080003"), ("withdraw 10.1.0.0/16", "020a01000010"),
                           ("set 0.0.0.0/0 cost 65535", "010000000000ffff")):
            self.assertEqual(commands.command_bytes(words.split()).hex(), raw)
            self.assertEqual(commands.command_words(bytes.fromhex(raw), "ospf"), words)
        self.assertEqual(commands.command_words(bytes.fromhex("010a000000080003"), "rip"), "set 10.0.0.0/8 metric 3")
        for words in ("set 10.0.0.1/8 cost 3", "set 10.0.0.0/33 cost 3", "set 10.0.0.0/8 cost 0", "set 10.0.0.0 cost 1",
                      "withdraw", "drop 10.0.0.0/8", "set 256.0.0.0/8 cost 1", "set 10.0.0.0/8 cost 65536"):
            with self.assertRaises(BadInput, msg=words):
                commands.command_bytes(words.split())
        for raw in ("00", "01", "020a0100001000", "020a01000021", "020a01000008"):
            self.assertIn("no command", commands.command_words(bytes.fromhex(raw), "ospf"))

    def test_any_bytes(self):
        """Any bytes are said in words, and a fault is told exactly where there is no packet."""
        rng = random.Random(1)
        seen = [row.body for _, _, run in generated(13) for row in run.rows if row.body]
        for body in [rng.randbytes(rng.randrange(70)) for _ in range(300)] + rng.sample(seen, 1500):
            for protocol, wire in (("ospf", ospf), ("rip", rip)):
                found = packet(protocol, body)
                self.assertEqual(wire.fault(body) is None, wire.decode(body) is not None)
                self.assertEqual(found.kind == "malformed", wire.decode(body) is None)
                self.assertTrue(found.words.isprintable() and found.details)

    def test_states(self):
        """Final states decode to routers of the same image, and the model comes to them by the rows."""
        for name, _, run in generated(26):
            nodes = {}
            for taken in taken_rows(run):
                nodes[taken.row.router] = taken.node
                self.assertTrue(row_words(run.network, taken.row).isprintable())
            self.assertEqual(differing_states(run, nodes), [], name)
            for state in run.states:
                guest = guest_of(run.network, state)
                self.assertEqual(guest.image(), state.image)
                self.assertTrue(all(line.isprintable() for line in guest_words(run.network, state.router, guest)))
                self.assertEqual(routes_of(guest), routes_of(nodes[state.router].guest))

    def test_bad_image(self):
        """An image that is none."""
        done = tool("explain", text=example("ospf_pair").replace(b"state a 7 0001 0001", b"state a 7 0001 ", 1)
                    .replace(b"state a 7 0001 00000000000f", b"state a 7 0001 00000000", 1))
        self.assertEqual(done.returncode, 1)
        self.assertIn(b"the image is none of ospf router", done.stderr)

    def test_inputs(self):
        """A command's input is as a trace writes it."""
        self.assertEqual(input_text(commands.as_command(b"A")), b"cmd 41")
        self.assertEqual(commands.as_command(b"A")[0], CMD)
