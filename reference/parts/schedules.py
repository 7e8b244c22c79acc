"""`shake`: schedules of many cases, also of OSPF and RIP routers."""

from inputs.casetexts import CROWD, some_case
from model.numbers import U64_MAX
from model.replay import shake

WHOLE = (b"--steps", b"1000000")


def shaken(rng, comparison):
    """`shake` of a random number by many or few steps."""
    text, case = some_case(rng)
    number = rng.choice((b"0", b"1", b"%d" % rng.getrandbits(64), b"%d" % (U64_MAX),
                         b"%d" % rng.randrange(1000)))
    steps = rng.choice((b"1000000", b"1000000", b"1000000", b"1", b"2", b"20", b"200",
                        b"%d" % rng.randint(1, 400)))
    comparison.compare([b"shake", number, b"--steps", steps], text + rng.choice((b"", b"", b"trash")))


def shaken_edge(rng, comparison):
    """`shake` with just as many steps as it takes, one less and one more."""
    text, case = some_case(rng)
    number = rng.getrandbits(64)
    need = len(shake(case, number, 10 ** 6)[1])
    for most in (need - 1, need, need + 1):
        comparison.compare([b"shake", b"%d" % number, b"--steps", b"%d" % most], text)


def shaken_back(rng, comparison):
    """`shake` and `rerun` of what it wrote; `check` and `lockstep` of the same."""
    text, _ = some_case(rng)
    done = comparison.compare([b"shake", b"%d" % rng.getrandbits(64), *WHOLE], text)
    for words in ([b"rerun"], [b"check"], [b"lockstep"]):
        comparison.compare(words, done.out)


def crowd(rng, comparison):
    """`shake` of a busy network."""
    text, _ = some_case(rng, (CROWD,))
    comparison.compare([b"shake", b"%d" % rng.getrandbits(64), b"--steps", b"30000"], text)


COUNT = 500
FIRST = ()
PIECES = (shaken, shaken, shaken, shaken_edge, shaken_back, crowd)
