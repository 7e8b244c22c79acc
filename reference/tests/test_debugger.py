"""Sessions of the debugger, worked out by hand from the rules."""

import unittest

from worked import SQUARE, TRIANGLE, TWO, case_of, transcript

from model.casetext import read_case
from model.events import TICK
from model.probes import Loop

KEY, ENTRY = (0, 0, 0, 0, 0, 0), (TICK, 0, b"")
ROWS = ("0 0 t 0000000000000000 0 0 a tick", "0 0 t 0000000000000000 1 0 b tick", "0 0 x 0000000000000000 0 0 a cmd 41",
        "0 10 m 0000000000000000 0 0 b msg 0 41", "1 0 t 0000000000000000 0 0 a tick", "1 0 t 0000000000000000 1 0 b tick",
        "2 0 t 0000000000000000 0 0 a tick", "2 0 t 0000000000000000 1 0 b tick",
        "2 0 x 0000000000000000 0 1 a down 0", "3 0 t 0000000000000000 0 0 a tick", "3 0 t 0000000000000000 1 0 b tick")


class Commands(unittest.TestCase):
    """What each command writes."""

    def told(self, text, commands, *lines):
        """The session of the commands over a case writes just these lines."""
        self.assertEqual(transcript(text, commands), list(lines))

    def test_break_at_a_router(self):
        """A break goes before the count of steps."""
        self.told(TWO, "break router b\nrun\nstep 2\nshow b\nwhere\nquit\n",
                  "break 0", ROWS[1], "at 2 break 0", ROWS[2], ROWS[3], "at 4 break 0", "node b 0 0001", "seen 41", "at 4")

    def test_step(self):
        """The count is told where all rows are handled, and the end only where one more is looked for."""
        self.told(TWO, "step\nstep 10\nstep\n", ROWS[0], "at 1 step", *ROWS[1:], "at 11 step", "at 11 end")
        self.told(TWO, "step 12\n", *ROWS, "at 11 end")

    def test_run(self):
        """The last row of this command alone."""
        self.told(TWO, "run\nrun\n", ROWS[10], "at 11 end", "at 11 end")

    def test_until(self):
        """It stops before the group; a group that is reached already writes no row."""
        self.told(TWO, "until 0\nuntil 2\nuntil 1\nuntil 4\nuntil 4294967295\nuntil 4294967296\n",
                  "at 0 group", ROWS[5], "at 6 group", "at 6 group", ROWS[10], "at 11 end", "at 11 end", "?")

    def test_until_and_break(self):
        """A break at the last row before the group goes before the group."""
        self.told(TWO, "break at 1 0\nstep 5\nuntil 2\nuntil 2\n",
                  "break 0", *ROWS[:5], "at 5 break 0", ROWS[5], "at 6 break 0", "at 6 group")

    def test_breaks(self):
        """The least break that matches is told."""
        self.told(TWO, "break body 41\nbreak port b 0\nbreak router a\nbreak at 0 10\nrun\nrun\nrun\nrun\n",
                  "break 0", "break 1", "break 2", "break 3", ROWS[0], "at 1 break 2", ROWS[2], "at 3 break 0",
                  ROWS[3], "at 4 break 0", ROWS[4], "at 5 break 2")
        self.told(TWO, "break port b 0\nbreak body 4100\nbreak port a 0\nrun\nrun\n",
                  "break 0", "break 1", "break 2", ROWS[3], "at 4 break 0", ROWS[10], "at 11 end")

    def test_queue(self):
        """Messages that are on their way, and neither ticks nor externals."""
        self.told(TWO, "queue b\nstep 3\nqueue b\nqueue a\nstep\nqueue b\n", "waiting 0", *ROWS[:3], "at 3 step",
                  ROWS[3], "waiting 1", "waiting 0", ROWS[3], "at 4 step", "waiting 0")

    def test_last(self):
        """At most 16 rows, also those of earlier commands."""
        text = case_of(groups=20)
        ticks = ["%d 0 t 0000000000000000 0 0 a tick" % group for group in range(20)]
        self.told(text, "last\nuntil 3\nlast\nrun\nlast\n", ticks[2], "at 3 group", *ticks[:3], ticks[19], "at 20 end",
                  *ticks[4:])

    def test_show(self):
        """Sends and mask after a port went down."""
        self.told(TWO, "show a\nrun\nshow a\n", "node a 0 0001", ROWS[10], "at 11 end", "node a 1 0000", "seen 41")

    def test_no_commands(self):
        """Other spellings, other ranges, and names that aren't there."""
        lines = ("", " ", "Step", "step ", " step", "step 0", "step 01", "step 200001", "step 1 1", "run 1", "until",
                 "until 00", "break", "break at 0", "break at 0 4294967296", "break at 0 0 0", "break router z",
                 "break port a", "break port z 0", "break port a 16", "break body 4", "break body 4G", "break body AB",
                 "break loop", "watch", "watch z", "watch Lost", "unwatch lost", "show", "show z", "show a a", "queue z",
                 "where 0", "last 16", "quit ", "back", "end")
        self.told(TWO, "".join(line + "\n" for line in lines) + "where\n", *["?"] * len(lines), "at 0")

    def test_greatest_numbers(self):
        """What still is a command."""
        self.told(TWO, "break at 4294967295 4294967295\nbreak port a 15\nbreak body 00ff\nstep 200000\n",
                  "break 0", "break 1", "break 2", *ROWS, "at 11 end")

    def test_ends(self):
        """The end of the input, and a last line without a newline, also `quit`."""
        self.told(TWO, "")
        self.told(TWO, "where\nwhere", "at 0", "at 0")
        self.told(TWO, "where\nquit", "at 0")
        self.told(TWO, "quit\nwhere\n")

    def test_trace_sections(self):
        """A trace section is skipped by its lines; only a whole line `trace` begins one."""
        self.told(TWO, "trace\nend trace 0\nwhere\n", "at 0")
        self.told(TWO, "trace\nstep\ncut 5\nwhere\n", "at 0")
        self.told(TWO, "trace\nstep\nend trace\nrun\n")
        self.told(TWO, "trace\nend trace 1")
        self.told(TWO, "trace", "?")
        self.told(TWO, "where\ntrace\nend trace 1\n", "at 0", "?", "?")
        self.told(TWO, "trace\nend trace 1\ntrace\nwhere\n", "?", "at 0")


class Probes(unittest.TestCase):
    """What the probes say."""

    def test_lost(self):
        """A RIP router withdraws its network; the probe is gone for good once it is dropped."""
        self.assertEqual(transcript(TRIANGLE, "watch lost\nrun\nwatch lost\nunwatch lost\nwatch lost\nunwatch lost\n"),
                         ["watch lost", "40 0 x 0000000000000000 0 0 a cmd 020a09000010", "at 150 probe lost", "?",
                          "report lost shown 150 yes 1", "?", "?"])

    def test_break_before_probe(self):
        """A break is told in place of a probe, and the probe's yes counts all the same."""
        self.assertEqual(transcript(TRIANGLE, "watch lost\nbreak body 020a\nrun\nunwatch lost\n"),
                         ["watch lost", "break 0", "40 0 x 0000000000000000 0 0 a cmd 020a09000010", "at 150 break 0",
                          "report lost shown 150 yes 1"])

    def test_shown_from_here(self):
        """A probe knows nothing of the rows before it was attached."""
        self.assertEqual(transcript(TRIANGLE, "until 40\nwatch lost\nstep 4\nunwatch lost\n")[-3:],
                         ["40 0 x 0000000000000000 0 0 a cmd 020a09000010", "at 150 probe lost",
                          "report lost shown 4 yes 1"])

    def test_storm(self):
        """The 1,001st message of a group, and each one behind it."""
        for messages, yes in ((1_000, 0), (1_001, 1), (1_003, 3)):
            feed = "".join("@0 a cmd %06x\n" % number for number in range(messages))
            text = TWO[:TWO.index("@0")] + feed + "end\n"
            told = transcript(text, "watch storm\n" + "run\n" * (yes + 1) + "unwatch storm\n")
            self.assertEqual(told[-1], "report storm shown %d yes %d" % (8 + 2 * messages, yes))
            self.assertEqual(sum("probe storm" in line for line in told), yes)

    def loop(self, kind, shows):
        """What `loop` says when routers of a triangle were shown these lines, one after the other."""
        case = read_case(case_of(kind=kind, routers="abc", links=("a b", "b c", "c a")).encode())[0]
        probe = Loop(case)
        return [probe.see((KEY, router, ENTRY), [line.encode() for line in show]) for router, show in shows]

    def test_loop(self):
        """The way by the least ports comes back to the row's router; the ports lead a to b, b to c, c to a."""
        on = "route 10.9.0.0/16 3 via %s"
        a, b, c = (0, [on % "0 1"]), (1, [on % "1"]), (2, [on % "1"])
        self.assertEqual(self.loop("ospf", (a, b, c)), [False, False, True])
        self.assertEqual(self.loop("ospf", (c, b, a, b)), [False, False, True, True])
        self.assertEqual(self.loop("ospf", ((0, [on % "1"]), b, c)), [False, False, True])
        self.assertEqual(self.loop("ospf", (a, b, (2, [on % "own 1"]))), [False] * 3)
        self.assertEqual(self.loop("ospf", (a, b, (2, [on % ""]))), [False] * 3)
        self.assertEqual(self.loop("ospf", (a, b, (2, [on % "2"]))), [False] * 3)
        self.assertEqual(self.loop("ospf", (a, b, (2, ["route 10.0.0.0/8 3 via 1"]))), [False] * 3)
        self.assertEqual(self.loop("ospf", (a, b, (2, []), c)), [False, False, False, True])

    def test_loop_of_others(self):
        """A way that comes into a loop of other routers doesn't come back to the row's router."""
        on = "route 10.9.0.0/16 3 via 0"
        self.assertEqual(self.loop("ospf", ((0, [on]), (1, [on]))), [False, True])
        self.assertEqual(self.loop("ospf", ((0, [on]), (1, [on]), (2, [on]))), [False, True, False])

    def test_unreachable(self):
        """At a RIP router a route of metric 16 is none; at an OSPF router it is one."""
        on = "route 10.9.0.0/16 16 via 0"
        self.assertEqual(self.loop("ospf", ((0, [on]), (1, [on]))), [False, True])
        self.assertEqual(self.loop("rip", ((0, [on]), (1, [on]))), [False, False])


class Shows(unittest.TestCase):
    """What routers show in the middle of a run."""

    def route(self, text, command, name):
        """The route lines of a router after a command."""
        return [line for line in transcript(text, "%s\nshow %s\n" % (command, name)) if line.startswith("route ")]

    def test_square(self):
        """Two ways of one cost, one of which goes away and comes back."""
        both, one = "route 10.0.6.0/24 31 via 0 1", "route 10.0.6.0/24 31 via 0"
        self.assertEqual(self.route(SQUARE, "until 50", "a"), [both])
        self.assertEqual(self.route(SQUARE, "until 90", "a"), [one])
        self.assertEqual(self.route(SQUARE, "until 199", "a"), [both])

    def test_triangle(self):
        """A RIP route that is withdrawn stays for 120 ticks at metric 16."""
        for command, lines in (("until 40", ["route 10.9.0.0/16 2 via 0"]), ("until 41", ["route 10.9.0.0/16 16 via 0"]),
                               ("until 160", ["route 10.9.0.0/16 16 via 0"]), ("until 161", [])):
            self.assertEqual(self.route(TRIANGLE, command, "b"), lines)

    def test_neighbours(self):
        """OSPF neighbours that aren't down, before the routes."""
        told = transcript(SQUARE, "until 90\nshow a\nshow f\n")
        self.assertEqual(told[2:5], ["node a 49 0001", "neighbour 0 full 2", "route 10.0.6.0/24 31 via 0"])
        self.assertEqual(told[-1], "route 10.0.6.0/24 1 via own")


if __name__ == "__main__":
    unittest.main()
