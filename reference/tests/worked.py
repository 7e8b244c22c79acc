"""What the tests of the model share: cases, and what is written for an input."""

import os
import sys

sys.path.insert(0, os.path.dirname(os.path.dirname(os.path.abspath(__file__))))

from model import program  # noqa: E402

TWO = """defined 1
period 100
groups 4
seed 0
router a flood
router b flood
link a b 10 1
feed
@0 a cmd 41
@2 a down 0
end
"""


def case_of(period=100, groups=4, seed=0, kind="flood", routers="a", links=(), cost=1, more=(), feed=()):
    """A case of routers of one kind, with links of delay 10."""
    lines = ["defined 1", "period %d" % period, "groups %d" % groups, "seed %d" % seed]
    lines += ["router %s %s" % (name, kind) for name in routers]
    lines += ["link %s 10 %d" % (ends, cost) for ends in links]
    return "".join(line + "\n" for line in [*lines, *more, "feed", *feed, "end"])


SQUARE = case_of(1000, 200, 9, "ospf", "abcdef", ("a b", "b c", "c d", "d a", "d e", "e f", "f c"), 10,
                 ["prefix f 10.0.6.0/24 1"], ["@60 a down 1", "@60 d down 1", "@120 a up 1", "@120 d up 1"])
SQUARE = SQUARE.replace(" 10 10\n", " 20 10\n")
TRIANGLE = case_of(100, 200, 0, "rip", "abc", ("a b", "a c", "b c"), 1, ["prefix a 10.9.0.0/16 1"],
                   ["@40 a cmd 020a09000010"])


def answered(words, text, beats=()):
    """(status number, standard error, standard output) for an input."""
    answer = program.answer([word.encode() for word in words.split(" ")], text.encode(), beats)
    return answer.number, answer.err.decode(), answer.out.decode()


def transcript(text, commands):
    """The lines that a session over a case writes."""
    status, _, out = answered("debug", text + commands)
    assert status == 0, out
    return out.splitlines()
