"""Words: commands, and what isn't one."""

CASE = b"defined 1\nperiod 10\ngroups 2\nseed 0\nrouter a flood\nfeed\n@0 a cmd 41\nend\n"

ALONE = [b"run", b"lockstep", b"check", b"rerun", b"shake", b"debug", b"import", b"gen", b"soak",
          b"Run", b"run ", b" run", b"", b"--help", b"-h", b"help", b"--version", b"-V", b"--",
          b"-", b"--steps", b"--steps=5", b"--steps=", b"-steps", b"--step", b"--STEPS", b"--steps ",
          b"0", b"1", b"5", b"05", b"00", b"+5", b"-5", b"5 ", b"0x5", b"1000000", b"1000001",
          b"18446744073709551615", b"18446744073709551616", b"99999999999999999999999",
          b"--workers", b"--workers=4", b"4", b"04", b"16", b"17", b"--live", b"--journal", b"--routers", b"--groups",
          b"--watch", b"x", b"\xc3\xa9", b"\xd9\xa5", b"1e3", b"1_000", b"1,000", b"five"]

FIXED = [[], [b"run"], [b"lockstep"], [b"check"], [b"rerun"], [b"shake"], [b"shake", b"3"],
         [b"shake", b"3", b"--steps"], [b"shake", b"--steps", b"3"], [b"shake", b"--steps", b"5", b"3"],
         [b"shake", b"3", b"--steps", b"5", b"--steps", b"5"], [b"shake", b"3", b"--steps=5"],
         [b"shake", b"3", b"--steps", b"0"], [b"shake", b"3", b"--steps", b"1"],
         [b"shake", b"3", b"--steps", b"1000000"], [b"shake", b"3", b"--steps", b"1000001"],
         [b"shake", b"3", b"--steps", b"05"], [b"shake", b"03", b"--steps", b"5"],
         [b"shake", b"0", b"--steps", b"999999"], [b"shake", b"00", b"--steps", b"5"],
         [b"shake", b"18446744073709551615", b"--steps", b"1000000"],
         [b"shake", b"18446744073709551616", b"--steps", b"1000000"],
         [b"shake", b"", b"--steps", b"5"], [b"shake", b"3", b"--steps", b""],
         [b"shake", b"3", b"--steps", b"5", b""], [b"", b"shake", b"3", b"--steps", b"5"],
         [b"shake", b"3 --steps 5"], [b"shake 3 --steps 5"], [b"shake", b"-3", b"--steps", b"5"],
         [b"run", b"run"], [b"run", b""], [b""], [b"run", b"--"], [b"--", b"run"],
         [b"run", b"--workers", b"4"], [b"run", b"--workers", b"0"], [b"run", b"--workers", b"17"],
         [b"run", b"--workers", b"1"], [b"run", b"--workers", b"16"], [b"run", b"--workers", b"04"],
         [b"run", b"--workers", b"4", b"--journal"], [b"run", b"--journal", b"--workers", b"4"],
         [b"run", b"--workers", b"4", b"--workers", b"4"], [b"run", b"--journal", b"--journal"],
         [b"run", b"--workers", b"--journal", b"4"], [b"run", b"--workers"], [b"run", b"4"],
         [b"run", b"--workers", b"--journal"], [b"lockstep", b"--journal"],
         [b"run", b"--live"], [b"run", b"--journal"], [b"lockstep", b"--watch"], [b"check", b"x"],
         [b"rerun", b"--steps", b"5"], [b"lockstep", b"3"], [b"gen", b"5"], [b"soak", b"5"],
         [b"import"], [b"debug"], [b"--help"], [b"run", b"--help"], [b"-h"], [b"help"], [b"--version"],
         [b"RUN"], [b"run\n"], [b"shake", b"3\n", b"--steps", b"5"], [b"r" * 100_000]]


def fixed(_, comparison):
    """All of `FIXED`, with a case and without one."""
    for words in FIXED:
        comparison.compare(words, CASE)
        comparison.compare(words, b"")


def drawn(rng, comparison):
    """Some words."""
    comparison.compare([rng.choice(ALONE) for _ in range(rng.randint(0, 5))], CASE)


def nearly_fixed(rng, comparison):
    """Those of a line of `FIXED`, with one more or another one."""
    words = list(rng.choice(FIXED))
    place = rng.randrange(len(words) + 1)
    words[place:place + rng.randint(0, 1)] = [rng.choice(ALONE)]
    comparison.compare(words, CASE)


COUNT = 500
FIRST = (fixed,)
PIECES = (drawn, nearly_fixed)
