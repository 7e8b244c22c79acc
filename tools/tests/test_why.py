"""tools/why: each cause of a refusal, with a made input, and what is said of it."""

import random
import unittest

from helping import EXAMPLES, defined, example, needs_defined, tool
from library.refusals import refusal_words, told_of
from model import program
from parts import checks, replays, texts

CASE = """defined 1
period 100
groups 4
seed 0
router a flood
router b flood
router r rip
link a b 10 1
link b r 10 1
prefix r 10.0.0.0/8 3
feed
@0 a cmd 41
@2 a down 0
end
"""
SMALLEST = example("smallest", ".case").decode()
TWO = example("two_routers", ".case").decode()
LATE = TWO + "journal\ninject @0 a cmd 41\nhandle b\nbeacon\nhandle b\nhandle a\nhandle a\ndeliver 0\n"


def edited(old: str, new: str, text: str = CASE) -> str:
    """The case with an edit."""
    assert old in text
    return text.replace(old, new, 1)


def journal(*steps: str, count: int | None = None, case: str = SMALLEST) -> str:
    """A case and a journal."""
    lines = ["journal", *steps, "end journal %d" % (len(steps) if count is None else count)]
    return case + "".join(line + "\n" for line in lines)


MANY_ROUTERS = "".join("router x%d flood\n" % number for number in range(62))
MANY_PORTS = "link a b 1 1\n" * 16
MANY_PREFIXES = "".join("prefix r 11.%d.0.0/16 1\n" % number for number in range(32))

# what it is called, the command, the input, the program's line, and what tools/why has to say.
MADE = (
    ("ended", "run", edited("end\n", ""), "line 14: ended", ['or "end"']),
    ("nothing", "run", "", "line 1: ended", ['expected "defined 1"']),
    ("wrong place", "run", edited("seed 0\n", ""), "line 4: syntax",
     ['expected "seed N", found "router a flood"', "a right line at the wrong place", "after the line seed"]),
    ("router behind a link", "run", edited("prefix r", "router c flood\nprefix r"), "line 10: syntax",
     ["at the wrong place", "move it up, above line 8"]),
    ("second seed", "run", edited("router a", "seed 1\nrouter a"), "line 5: syntax", ["line 4 is one already"]),
    ("tab", "run", edited("period 100", "period\t100"), "line 2: syntax",
     ["a tab at column 7", 'right so: "period 100"']),
    ("carriage return", "run", CASE.replace("\n", "\r\n"), "line 1: syntax", ["carriage return", 'so: "defined 1"']),
    ("byte order mark", "run", "\ufeff" + CASE, "line 1: syntax", ["byte order mark"]),
    ("UTF-16", "run", CASE.encode("utf-16"), "line 1: syntax", ["UTF-16"]),
    ("trailing space", "run", edited("groups 4", "groups 4 "), "line 3: syntax", ["a space at its end"]),
    ("leading space", "run", edited("groups 4", " groups 4"), "line 3: syntax", ["a space at its beginning"]),
    ("two spaces", "run", edited("groups 4", "groups  4"), "line 3: syntax", ["two spaces at column 7"]),
    ("no-break space", "run", edited("groups 4", "groups\u00a04"), "line 3: syntax", ["no-break space"]),
    ("upper case", "run", edited("router a flood", "router A flood"), "line 5: syntax",
     ["upper-case", "router a flood"]),
    ("upper-case digits", "run", edited("cmd 41", "cmd 4F"), "line 12: syntax", ["upper-case"]),
    ("not ASCII", "run", edited("router a", "router \u00e4"), "line 5: syntax", ["all letters are ASCII"]),
    ("empty line", "run", edited("router a", "\nrouter a"), "line 5: syntax", ["no empty lines"]),
    ("comment", "run", edited("router a", "# three\nrouter a"), "line 5: syntax", ["no comments"]),
    ("no newline", "run", CASE[:-1], "line 14: syntax", ["no newline"]),
    ("leading zero", "run", edited("period 100", "period 0100"), "line 2: syntax",
     ["0100 has a zero in front; write 100"]),
    ("sign", "run", edited("period 100", "period +100"), "line 2: syntax", ["has a sign"]),
    ("no number", "run", edited("period 100", "period ten"), "line 2: syntax", ['"ten" isn\'t a decimal number']),
    ("unknown kind", "run", edited("a flood", "a bgp"), "line 5: syntax", ['"bgp" is no kind', "flood, ospf and rip"]),
    ("long name", "run", edited("router a", "router abcdefghijklmnopq"), "line 5: syntax", ["17 characters"]),
    ("digit first", "run", edited("router a", "router 1a"), "line 5: syntax", ["begins with a digit"]),
    ("letter of a name", "run", edited("router a", "router a-1"), "line 5: syntax", ['has "-"']),
    ("fields", "run", edited("link a b 10 1", "link a b 10"), "line 8: syntax", ['it has 4 fields, and "link NAME']),
    ("no length", "run", edited("10.0.0.0/8", "10.0.0.0"), "line 10: syntax", ["has no length"]),
    ("three numbers", "run", edited("10.0.0.0/8", "10.0.0/8"), "line 10: syntax", ["3 numbers before the slash"]),
    ("odd digits", "run", edited("cmd 41", "cmd 411"), "line 12: syntax", ["3 hexadecimal digits"]),
    ("0x", "run", edited("cmd 41", "cmd 0x41"), "line 12: syntax", ["begins with 0x"]),
    ("no hexadecimal", "run", edited("cmd 41", "cmd hi"), "line 12: syntax", ['has "h"']),
    ("unknown external", "run", edited("down 0", "fail 0"), "line 13: syntax", ['"fail" is none of cmd, down and up']),
    ("unknown word", "run", edited("router a", "rooter a"), "line 5: syntax",
     ["no line begins with", "router NAME KIND"]),
    ("version", "run", edited("defined 1", "defined 2"), "line 1: version", ["version 1 alone"]),
    ("period", "run", edited("period 100", "period 0"), "line 2: range",
     ["the period is 0, and it is from 1 to 1,000,000"]),
    ("groups", "run", edited("groups 4", "groups 4097"), "line 3: range", ["is 4,097, and it is from 1 to 4,096"]),
    ("seed", "run", edited("seed 0", "seed 18446744073709551616"), "line 4: range", ["above 64 bits"]),
    ("delay", "run", edited("link a b 10 1", "link a b 0 1"), "line 8: range", ["the delay is 0, and it is from 1"]),
    ("cost", "run", edited("link a b 10 1", "link a b 10 65536"), "line 8: range", ["from 1 to 65,535"]),
    ("metric", "run", edited("10.0.0.0/8 3", "10.0.0.0/8 16"), "line 10: range",
     ["the metric at a RIP router is 16", "15"]),
    ("byte", "run", edited("10.0.0.0/8", "10.256.0.0/8"), "line 10: range", ["byte of the address is 256"]),
    ("length", "run", edited("10.0.0.0/8", "10.0.0.0/33"), "line 10: range",
     ["the length is 33, and it is from 0 to 32"]),
    ("group", "run", edited("@2 a", "@4 a"), "line 13: range", ["the group is 4, and it is from 0 to 3", "4 groups"]),
    ("port 16", "run", edited("down 0", "down 16"), "line 13: range", ["the port is 16, and it is from 0 to 15"]),
    ("command", "run", edited("cmd 41", "cmd " + "41" * 256), "line 12: range", ["256, and it is from 1 to 255"]),
    ("name", "run", edited("link b r", "link b q"), "line 9: name", ["no router is called q; there are a, b, r"]),
    ("close name", "run", edited("router a flood", "router left flood").replace("link a", "link lef"), "line 8: name",
     ["left is meant?"]),
    ("same", "run", edited("link a b", "link a a"), "line 8: same", ["both ends of the link are a"]),
    ("twice", "run", edited("router b flood", "router a flood"), "line 6: twice", ["line 5 has a router of this name"]),
    ("twice a network", "run", edited("feed", "prefix r 10.0.0.0/8 4\nfeed"), "line 11: twice",
     ["has the network 10.0.0.0/8"]),
    ("kind", "run", edited("prefix r", "prefix b"), "line 10: kind", ["b is a flooding router (line 6)"]),
    ("host", "run", edited("10.0.0.0/8", "10.1.2.3/8"), "line 10: host", ["past its length of 8", "10.0.0.0/8"]),
    ("many routers", "run", edited("link a b", MANY_ROUTERS + "link a b"), "line 69: many", ["at most 64 routers"]),
    ("many ports", "run", edited("link a b", MANY_PORTS + "link a b"), "line 24: many", ["router a has 16 ports"]),
    ("many prefixes", "run", edited("feed", MANY_PREFIXES + "feed"), "line 42: many", ["router r has 32 prefixes"]),
    ("order", "run", edited("@0 a cmd 41\n@2 a down 0\n", "@2 a down 0\n@0 a cmd 41\n"), "line 13: order",
     ["its group is 0, and the line before is of group 2", "move it up, above line 12"]),
    ("port", "run", edited("a down 0", "a down 1"), "line 13: port", ["router a has no port 1; it has the port 0"]),
    ("no journal", "rerun", SMALLEST, "line 8: journal", ['expected "journal", the first line']),
    ("journal 2", "rerun", SMALLEST + "journal 2\n", "line 8: journal",
     ['expected "journal", found "journal 2"', "case ends"]),
    ("unknown router", "rerun", journal("handle b"), "line 9: journal", ["no router is called b; there are a"]),
    ("unknown step", "rerun", journal("stop"), "line 9: journal", ["the steps are: beacon"]),
    ("place", "rerun", journal("deliver 01"), "line 9: journal", ["01 has a zero in front"]),
    ("spaces", "rerun", journal("handle  a"), "line 9: journal", ["two spaces", 'right so: "handle a"']),
    ("empty step", "rerun", journal(""), "line 9: journal", ["no empty lines"]),
    ("count", "rerun", journal("handle a", "close", "commit", count=2), "line 12: journal",
     ["3 steps come before it, and it says 2; write: end journal 3"]),
    ("no last line", "rerun", SMALLEST + "journal\nhandle a\n", "line 10: journal", ['expected "end journal 1"']),
    ("more behind", "rerun", journal("handle a", "close", "commit") + "x\n", "line 13: journal", ["has ended"]),
    ("inject", "rerun", journal("inject @0 a down 0"), "line 9: journal", ["router a has no port 0"]),
    ("inject of a group", "rerun", journal("inject @1 a cmd 41"), "line 9: journal",
     ["the group is 1, and it is from 0 to 0"]),
    ("inject without @", "rerun", journal("inject a cmd 41"), "line 9: journal", ["inject @GROUP NAME cmd HEX"]),
    ("unfinished trace", "rerun", SMALLEST + "trace\n" + journal("handle a", case=""), "line 12: journal",
     ["has no last line"]),
    ("behind", "rerun", LATE + "handle b\nend journal 8\n", "illegal step 8",
     ["step 8, line 20: handle b", "b is behind", "a message of a to b at port 0, 0.10 s: 41 (1 byte)", "rollback b"]),
    ("not behind", "rerun", journal("rollback a"), "illegal step 1", ["a isn't behind"]),
    ("nothing to handle", "rerun", journal("handle a", "handle a"), "illegal step 2", ["a has nothing to handle"]),
    ("nothing in flight", "rerun", journal("deliver 0"), "illegal step 1", ["no packet is in flight"]),
    ("place in flight", "rerun", LATE.replace("deliver 0", "deliver 1") + "end journal 7\n", "illegal step 7",
     ["nothing is at place 1", "1 packet, at the places 0 to 0"]),
    ("closed", "rerun", journal("close", "beacon"), "illegal step 2", ["the feed is closed"]),
    ("not fed", "rerun", journal("beacon", case=TWO), "illegal step 1", ["group 0 isn't fed yet", "@0 a cmd 41"]),
    ("early close", "rerun", journal("close", case=TWO), "illegal step 1",
     ["the feed isn't at its end", "@0 a cmd 41"]),
    ("other inject", "rerun", journal("inject @2 a down 0", case=TWO), "illegal step 1",
     ["in the order of the feed, and the next external of the case is @0 a cmd 41"]),
    ("early inject", "rerun", journal("inject @0 a cmd 41", "inject @2 a down 0", case=TWO), "illegal step 2",
     ["its group is 2, and the group that has begun last is 0; take beacon first"]),
    ("last group", "rerun", journal("beacon"), "illegal step 1", ["the last group, 0, has begun"]),
    ("open", "rerun", LATE + "end journal 7\n", "open",
     ["1 external is left; the next external of the case is @2 a down 0", "b is behind", "a has 1 event to handle"]),
    ("open feed", "rerun", journal("handle a"), "open", ["the step close is missing"]),
    ("not committed", "rerun", journal("handle a", "close"), "open", ["a commit is missing at the end"]),
    ("in flight", "rerun", LATE.replace("deliver 0\n", "") + "end journal 6\n", "open", ["1 packet is in flight"]),
    ("shaken", "shake 3 --steps 1", TWO, "open", ["--steps"]),
    ("no trace", "check", SMALLEST, "differs at %d" % len(SMALLEST), ["the input has ended", '"t" at column 1: "trace"',
                                                                     "no trace after the case"]),
    ("longer", "check", example("smallest").decode() + "x\n", "differs at %d" % len(example("smallest")),
     ['"x" at column 1', "the case's trace has ended"]),
    ("a journal behind", "check", example("smallest").decode() + "journal\n",
     "differs at %d" % len(example("smallest")),
     ["a journal follows the trace"]),
    ("another byte", "check", example("two_routers").decode().replace("msg 0 41", "msg 0 42"),
     "differs at %d" % (example("two_routers").index(b"msg 0 41") + 7),
     ["line 16 of the input", '"2" at column 38: "0 10 m', '"1" at column 38: "0 10 m']),
    ("cut short", "check", example("smallest").decode()[:-1], "differs at %d" % (len(example("smallest")) - 1),
     ["isn't whole"]),
    ("words", "runs", "", "usage", ["defined shake NUMBER --steps M"]),
)


def encoded(text: str | bytes) -> bytes:
    """The bytes of an input."""
    return text.encode() if isinstance(text, str) else text


class Causes(unittest.TestCase):
    """Each cause with a made input."""

    def test_words(self):
        """What is said of each."""
        for name, _, text, line, wanted in MADE:
            told = "\n".join(refusal_words(line, encoded(text)))
            for words in wanted:
                self.assertIn(words, told, name)

    def test_lines(self):
        """The lines of `MADE` are those that the model answers."""
        for name, command, text, line, _ in MADE:
            answer = program.answer(command.encode().split(), encoded(text))
            self.assertEqual(answer.err.decode(), "defined: %s\n" % line, name)

    @needs_defined
    def test_lines_of_the_program(self):
        """The lines of `MADE` are those that the built program answers."""
        for name, command, text, line, _ in MADE:
            done = defined(*command.split(), text=encoded(text))
            self.assertEqual(done.stderr.decode(), "defined: %s\n" % line, name)

    def test_all_causes_are_made(self):
        """No cause and no other line that can be made is missing."""
        made = {told_of(line).what for _, _, _, line, _ in MADE}
        self.assertEqual(made, {"ended", "syntax", "version", "range", "name", "same", "twice", "kind", "host", "many",
                                "order", "port", "journal", "illegal step", "open", "differs", "usage"})

    def test_many_links(self):
        """A 257th link."""
        lines = CASE.splitlines(True)
        routers = ["router x%d flood\n" % number for number in range(34)]
        links = ["link x%d x%d 1 1\n" % (number % 34, (number + 1 + number // 34) % 34) for number in range(257)]
        text = "".join(lines[:4] + routers + links)
        self.assertIn("at most 256 links", "\n".join(refusal_words("line 295: many", text.encode())))

    def test_others(self):
        """The lines that tell of the world outside."""
        for line in ("read fault", "write fault", "no memory", "defined: usage"):
            self.assertTrue(refusal_words(line, b""))
        self.assertIn("at most 16,777,216", refusal_words("too big", b"x" * 16_777_217)[0])
        self.assertTrue(refusal_words("cut", SMALLEST.encode()))


class Collector:
    """Takes the place of a comparison in the generators of `reference/parts`, and explains what is refused."""

    def __init__(self, test: unittest.TestCase):
        self.test, self.count = test, 0

    def compare(self, words: list[bytes], text: bytes):
        """Explains the model's line of an input."""
        answer = program.answer(words, text)
        self.count += 1
        if answer.err and answer.status != "usage":
            told = refusal_words(answer.err.decode(), text)
            self.test.assertTrue(told and all(told) and all(line.isprintable() for line in told), answer.err)
        return answer


class Generated(unittest.TestCase):
    """Whatever is refused of generated inputs is explained."""

    def test_generated(self):
        """Case texts, traces and journals with edits."""
        collector, rng = Collector(self), random.Random("why")
        for part, count in ((texts, 500), (checks, 100), (replays, 400)):
            end = collector.count + count
            while collector.count < end:
                rng.choice(part.PIECES)(rng, collector)


class Command(unittest.TestCase):
    """The command line."""

    def test_forms(self):
        """The line quoted or not, the input from a file or standard input."""
        text, path = b"defined 1\nperiod 0\n", EXAMPLES + "/smallest.case"
        for words in (["line 2: range"], ["defined: line 2: range", "-"], ["line", "2:", "range"],
                      ["defined:", "line", "2:", "range", "-"]):
            done = tool("why", *words, text=text)
            self.assertEqual((done.returncode, done.stderr), (0, b""))
            self.assertIn(b"the period is 0", done.stdout)
        self.assertIn(b"expected a step", tool("why", "line 9: journal", text=journal("x")).stdout)
        self.assertIn(b"--steps", tool("why", "open", path).stdout)
        self.assertIn(b"shake NUMBER", tool("why", "usage").stdout)

    def test_bad(self):
        """What is no line, and a line of another input."""
        self.assertEqual(tool("why", "line 2").returncode, 2)
        self.assertEqual(tool("why").returncode, 2)
        for line in ("line 3: range", "illegal step 1", "open", "differs at 3", "line 1: journal"):
            done = tool("why", line, text=b"defined 1\nperiod 0\n")
            self.assertEqual(done.returncode, 1, line)
            self.assertIn(b"the line isn't about this input", done.stderr)
        for line in ("line 3: range", "illegal step 1", "line 9: journal"):
            done = tool("why", line, text=journal("handle a", "close", "commit"))
            self.assertEqual(done.returncode, 1, line)
