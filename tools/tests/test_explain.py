"""tools/explain: rows, routes, final states and journals in words."""

import resource
import subprocess
import unittest

from helping import EXAMPLES, TOOLS, defined, example, example_names, generated, lockstep, needs_defined, tool
from library.explaining import Filter, Shown, trace_words
from library.reading import read_run
from library.replaying import RouteWatch, taken_rows
from library.routes import routes_of
from model import journal, replay
from model.events import CMD, MSG

HALF = """defined 1
period 10
groups 3
seed 0
router a ospf
router b ospf
router r rip
router f flood
link a b 1 1
link a b 2 1
link f r 1 1
feed
@0 a cmd 010a000000080003
@0 a cmd 020b00000008
@0 r cmd 010a000000080010
@0 f cmd 02020000
@0 f cmd 02020000
@1 a down 1
@1 b down 1
@2 b down 0
end
"""


def explained(text: bytes | str, *words: str) -> list[str]:
    """The lines that tools/explain writes of an input."""
    done = tool("explain", *words, text=text)
    if (done.returncode, done.stderr) != (0, b""):
        raise AssertionError(done.stderr.decode())
    return done.stdout.decode().splitlines()


def rows_of(lines: list[str]) -> list[str]:
    """The lines of rows, without their columns' widths."""
    return [" ".join(line.split()) for line in lines if line.lstrip()[:1].isdigit() and ", seed " not in line]


class Rows(unittest.TestCase):
    """Rows in words."""

    def test_ospf_pair(self):
        """The whole story of two OSPF routers."""
        lines = explained(example("ospf_pair"), "--without", "tick", "--routes")
        self.assertEqual(lines[0], "16 groups of 100 moments, seed 0; 2 routers, 1 link, 0 externals")
        rows = rows_of(lines)
        self.assertEqual(len(rows), 14)
        self.assertEqual(rows[2], "25 10.10 1010 b from a at port 0: Hello from 0.0.0.1, hears 0.0.0.2")
        self.assertEqual(rows[5], "28 10.20 1020 b from a at port 0: Update from 0.0.0.1: router-LSA of 0.0.0.1, "
                                  "sequence 0x80000002, age 1, links to 0.0.0.2 by port 0 cost 1, 10.9.0.0/16 cost 1 "
                                  "[passed over: the copy was installed in this tick]")
        self.assertEqual(lines[lines.index("      routes of b: new 10.9.0.0/16 cost 2 via a") - 1].split()[0], "43")
        self.assertIn("  port 0 to b: neighbour 0.0.0.2 full, last heard at 10", lines)
        self.assertIn("  route 10.9.0.0/16 cost 2 via a", lines)

    def test_routes_of_six_routers(self):
        """When router a's route to f's network changes."""
        lines = explained(example("six_routers"), "--changes", "--router", "a", "--no-states")
        changes = [line.strip() for line in lines if "routes of" in line]
        self.assertEqual(changes, [
            "routes of a: new 10.0.6.0/24 cost 31 via b, d",
            "routes of a: now 10.0.6.0/24 cost 31 via b, was cost 31 via b, d",
            "routes of a: now 10.0.6.0/24 cost 31 via b, d, was cost 31 via b"])
        self.assertEqual([row.split()[0] for row in rows_of(lines)], ["355", "653", "1278"])

    def test_links_and_commands(self):
        """Commands in words, links that fail as links, and what is passed over."""
        rows = [row.split(" ", 3)[3] for row in rows_of(explained(lockstep(HALF.encode()), "--kind", "command,down"))]
        self.assertEqual(rows, [
            "a command: set 10.0.0.0/8 cost 3",
            "a command: withdraw 11.0.0.0/8 [passed over: it has no such network of its own]",
            "r command: set 10.0.0.0/8 metric 16 [passed over: a metric is from 1 to 15, and this is 16]",
            "f command: flood 02020000",
            "f command: flood 02020000 [passed over: it has these bytes already]",
            "a port 1 to b goes down (down a b 2)", "b port 1 to a goes down (down a b 2)",
            "b port 0 to a goes down (down a b 1, at this end alone)"])

    def test_bytes_that_are_no_packet(self):
        """A flooding router's bytes at a RIP router."""
        rows = rows_of(explained(lockstep(HALF.encode()), "--router", "r", "--kind", "malformed"))
        self.assertEqual([row.split(" ", 4)[4] for row in rows], [
            "from f at port 0: no RIP packet: 0 entries [passed over: no RIP message: 0 entries]"])

    def test_filters(self):
        """Each filter lets through what it says."""
        run, text = read_run(example("six_routers")), example("six_routers")
        everything = rows_of(explained(text))
        self.assertEqual(len(everything), len(run.rows))
        wanted = {("--router", "a"): [row for row in run.rows if row.router == 0],
                  ("--router", "a", "--router", "b", "--port", "1"): [row for row in run.rows if row.router in (0, 1)
                                                                      and row.port == 1],
                  ("--group", "60"): [row for row in run.rows if row.group == 60],
                  ("--group", "190-"): [row for row in run.rows if row.group >= 190],
                  ("--group", "10-12", "--without", "tick"): [row for row in run.rows if row.group in (10, 11, 12)
                                                              and row.input == MSG],
                  ("--kind", "hello"): [row for row in run.rows if row.body[1:2] == b"\1"]}
        for words, rows in wanted.items():
            expected = [everything[row.number - 1] for row in rows]
            self.assertEqual(rows_of(explained(text, *words, "--no-states")), expected)
        self.assertEqual(rows_of(explained(text, "--no-rows")), [])

    def test_examples_and_generated(self):
        """Every run is explained, a line a row, and the model comes to the trace's final states."""
        for name in example_names():
            lines = explained(example(name), "--routes")
            self.assertEqual(len(rows_of(lines)), len(read_run(example(name)).rows), name)
        for name, _, run in generated(13):
            lines = list(trace_words(run, Filter(), Shown(routes=True)))
            self.assertEqual(len(rows_of(lines)), len(run.rows), name)

    def test_watch(self):
        """Routes are told at every row at which they change."""
        for name, _, run in generated(20, most=400):
            watch = RouteWatch(run)
            before = {router: list(routes.values()) for router, routes in enumerate(watch.routes)}
            for taken in taken_rows(run):
                changes, after = watch.changes(taken), routes_of(taken.node.guest)
                self.assertEqual(bool(changes), before[taken.row.router] != after, (name, taken.row.number))
                before[taken.row.router] = after


class PassedOver(unittest.TestCase):
    """What is said to be passed over changes nothing but by the end of the step."""

    def test_flooding(self):
        """Of what comes to a flooding router, just what it passes over leaves it as it was."""
        for name, _, run in generated(26, most=700):
            images = {}
            for taken in taken_rows(run):
                router = taken.row.router
                if run.network.kinds[router] == "flood" and taken.row.input in (CMD, MSG):
                    image = taken.node.guest.image()
                    is_same = image == images.get(router, bytes(2))
                    self.assertEqual(is_same, taken.passed_over is not None, (name, taken.row.number))
                    images[router] = image

    def test_generated(self):
        """A row that is passed over leaves the router's image, but for what the end of an OSPF router's step does."""
        count = 0
        for name, _, run in generated(20, most=400):
            images = {}
            for taken in taken_rows(run):
                router, guest = taken.row.router, taken.node.guest
                image = guest.image()
                is_settled = run.network.kinds[router] != "ospf" or images.get(router) is None or not guest.out
                if taken.passed_over is not None and is_settled and router in images:
                    self.assertEqual(image, images[router], (name, taken.row.number, taken.passed_over))
                    count += 1
                images[router] = image
        self.assertGreater(count, 100)


class Journals(unittest.TestCase):
    """Journals in words."""

    def test_steps(self):
        """A schedule with a rollback."""
        case = example("two_routers", ".case")
        text = case + (b"journal\ninject @0 a cmd 41\nhandle b\nbeacon\nhandle b\nhandle a\nhandle a\ndeliver 0\n"
                       b"rollback b\nend journal 8\n")
        lines = explained(text)
        self.assertIn("   1  inject @0 a cmd 41: from outside, a: flood 41", lines)
        self.assertIn("   6  handle a: handles the command of 0.00 s at a: flood 41; sends 1 message", lines)
        self.assertIn("   7  deliver 0: arrives: a message of a to b at port 0, 0.10 s: 41 (1 byte)", lines)
        self.assertTrue(any(line.startswith("   8  rollback b: b is behind:") and line.endswith(
            "so it takes back 1 event; unsends 0 messages") for line in lines))
        self.assertTrue(any(line.startswith("left at the end: the feed is open") for line in lines))
        done = tool("explain", text=text.replace(b"rollback b", b"handle b"))
        self.assertEqual(done.returncode, 1)
        self.assertIn(b"step 8 of the journal (handle b, line 20) may not be taken: b is behind", done.stderr)

    def test_shaken(self):
        """What shake writes, by the model: every step has a line, and nothing is left."""
        for name in ("two_routers", "ospf_pair", "rip_pair"):
            run = read_run(example(name))
            steps = replay.shake(run.case, 7, 100_000)[1]
            lines = explained(example(name) + journal.write_journal(run.case, steps), "--journal")
            self.assertEqual(len(rows_of(lines)), len(steps))
            self.assertFalse(any(line.startswith("left") for line in lines))

    @needs_defined
    def test_shaken_by_the_program(self):
        """What the program's shake writes."""
        done = defined("shake", "3", "--steps", "1000000", text=example("six_routers", ".case"))
        lines = explained(done.stdout, "--journal", "--router", "a")
        self.assertTrue(any("rollback a" in line for line in lines))


class Command(unittest.TestCase):
    """The command line, and what is bad."""

    def test_bad(self):
        """Bad inputs and arguments."""
        for words, text, told in (([], b"", b"begins with no case"),
                                  ([], example("smallest", ".case"), b"neither a trace"),
                                  (["--router", "z"], example("smallest"), b"no router is called z"),
                                  (["--group", "x"], example("smallest"), b"--group is N"),
                                  (["--journal"], example("smallest"), b"no journal"),
                                  (["/nonexistent"], b"", b"no such file"), (["/"], b"", b"is a directory")):
            done = tool("explain", *words, text=text)
            self.assertEqual(done.returncode, 1, words)
            self.assertIn(told, done.stderr)
        self.assertEqual(tool("explain", "--kind", "x").returncode, 2)

    def test_other_final_state(self):
        """A trace whose final states aren't those that its rows lead to is said to be one."""
        done = tool("explain", text=example("ospf_pair").replace(b"state a 7 ", b"state a 8 "))
        self.assertEqual(done.returncode, 0)
        self.assertIn(b"lead to other final states", done.stderr)

    def test_help(self):
        """Each tool has help with an example."""
        for name in ("explain", "pcap", "compare", "why"):
            done = tool(name, "--help")
            self.assertEqual(done.returncode, 0)
            self.assertIn(b"example:\n  ", done.stdout)

    def test_streams(self):
        """A pipe that is closed early, a full disk, a file for the output."""
        command = "%s/explain %s/six_routers.out | head -n 2" % (TOOLS, EXAMPLES)
        done = subprocess.run(["bash", "-c", command], capture_output=True, check=False)
        self.assertEqual((done.returncode, done.stderr, done.stdout.count(b"\n")), (0, b"", 2))
        done = tool("explain", "-o", "/dev/full", text=example("six_routers"))
        self.assertEqual(done.returncode, 1)
        self.assertIn(b"can't write /dev/full: no space left", done.stderr)
        done = subprocess.run(["bash", "-c", "%s/explain %s/smallest.out > /dev/full" % (TOOLS, EXAMPLES)],
                              capture_output=True, check=False)
        self.assertEqual(done.returncode, 1)
        self.assertNotIn(b"Traceback", done.stderr)

    def test_closed_streams(self):
        """Closed and full streams are said in one line by each tool."""
        output = "%s/smallest.out" % EXAMPLES
        for words, status in (("explain <&-", 1), ("pcap <&-", 1), ("why line 1: ended <&-", 1),
                              ("compare - %s <&-" % output, 2), ("explain %s >&-" % output, 1),
                              ("pcap %s >&-" % output, 1), ("pcap %s > /dev/full" % output, 1),
                              ("compare %s %s >&-" % (output, output), 2), ("why usage >&-", 1),
                              ("why usage > /dev/full", 1)):
            done = subprocess.run(["bash", "-c", "%s/%s" % (TOOLS, words)], capture_output=True, check=False)
            self.assertEqual((done.returncode, done.stderr.count(b"\n")), (status, 1), (words, done.stderr))

    def test_many_rows(self):
        """20,000 rows in some seconds of a processor's time."""
        feed = "".join("@%d r%d cmd %04x\n" % (number // 10, number % 40, number) for number in range(480))
        case = "".join(["defined 1\nperiod 100\ngroups 48\nseed 0\n", *("router r%d flood\n" % n for n in range(40)),
                        *("link r%d r%d 3 1\n" % (n, (n + 1) % 40) for n in range(40)), "feed\n", feed, "end\n"])
        text = lockstep(case.encode())
        begin = resource.getrusage(resource.RUSAGE_CHILDREN).ru_utime
        lines = explained(text)
        self.assertGreater(len(rows_of(lines)), 20_000)
        self.assertLess(resource.getrusage(resource.RUSAGE_CHILDREN).ru_utime - begin, 20)
