"""What is large and slow: the limits of rows, of input, and of what a router holds."""

from inputs.casetexts import joined
from model.casetext import read_case
from model.journal import write_journal
from model.trace import trace_text

LEAST = [b"defined 1", b"period 7", b"groups 1", b"seed 0", b"router r0 flood", b"feed"]
WIDE = [b"defined 1", b"period 7", b"groups 3125", b"seed 0", *(b"router r%d flood" % n for n in range(64)), b"feed"]
MOST_INPUT = 16_777_216


def handled(case, order):
    """A journal: all beacons, externals, the close, all handles in an order, and a commit."""
    steps = [("beacon",)] * (case.groups - 1)
    steps += [("inject", external) for external in case.feed] + [("close",)]
    waiting = [router for router in range(len(case.routers)) for _ in range(case.groups)]
    waiting += [external.router for external in case.feed]
    if order == "by router":
        waiting.sort()
    return steps + [("handle", router) for router in waiting] + [("commit",)]


def rows(_, comparison):
    """Exactly 200,000 rows, and one more."""
    for externals in (0, 1):
        text = joined(WIDE + [b"@3124 r5 cmd 41"] * externals + [b"end"])
        case = read_case(text)[0]
        section, _ = trace_text(case)
        comparison.compare([b"run"], text)
        for other in (section, section[:-1], section + b"x", section.replace(b"cut 2", b"cut 3")):
            comparison.compare([b"check"], text + other)
        for order in ("by router", "as they come"):
            comparison.compare([b"rerun"], text + write_journal(case, handled(case, order)))


def messages(_, comparison):
    """Runs that reach the limit of rows by messages."""
    routers = [b"router r%d flood" % number for number in range(4)]
    links = [b"link r0 r%d 3 1" % number for number in range(1, 4)]
    for count in (49_998, 49_999, 50_000):
        feed = [b"@0 r0 cmd %06x" % number for number in range(count)]
        comparison.compare([b"run"], joined(LEAST[:4] + routers + links + [b"feed"] + feed + [b"end"]))


def bodies(_, comparison):
    """A flooding router takes 65,535 bodies and no more."""
    comparison.compare([b"run"], joined(LEAST + [b"@0 r0 cmd %06x" % number for number in range(65_540)] + [b"end"]))


def sizes(_, comparison):
    """Inputs of just the greatest size and one more; long fields."""
    text = joined(LEAST + [b"end"])
    for size in (MOST_INPUT - 1, MOST_INPUT, MOST_INPUT + 1):
        for words in ([b"run"], [b"check"], [b"rerun"], [b"walk"]):
            comparison.compare(words, text + b"x" * (size - len(text)))
        comparison.compare([b"run"], b"\n" * size)
        comparison.compare([b"run"], b"defined " + b"1" * (size - 8))
    for body in (b"00" * 4_000_000, b"0" * 8_000_001, b"0" * 8_000_000 + b"g"):
        comparison.compare([b"run"], joined(LEAST + [b"@0 r0 cmd " + body]))


def live(_, comparison):
    """Live feeds of more rows than a run has, and inputs of just the greatest size and one more, cut at each place."""
    if "live" in comparison.missing:
        return
    words, front = [b"run", b"--live"], joined(LEAST)
    for lines in ([b"r5 cmd 41"], [b"r5 cmd 41", b"r5 down 0"]):
        comparison.compare(words, joined(WIDE[:2] + [b"groups 3125"] + WIDE[3:] + lines))
    for size in (MOST_INPUT - 1, MOST_INPUT, MOST_INPUT + 1, MOST_INPUT + 2):
        for text in (b"defined 1\n", LEAST[0], front, front + b"r0 cmd 41\n", front + b"r0 cmd 41\nend\n",
                     front + b"r0 cmd ", front + b"r1 cmd 41\n"):
            comparison.compare(words, text + b"4" * (size - len(text)))
            comparison.compare(words, text + b"4" * (size - len(text) - 1) + b"\n")
            comparison.compare(words, text + b"4" * (size - len(text) - 2) + b"\n4")


def debug(_, comparison):
    """Sessions at the limit of rows, and inputs of just the greatest size and one more, cut at each place."""
    if "debug" in comparison.missing:
        return
    words, case = [b"debug"], joined(LEAST + [b"end"])
    for externals in (0, 1, 2):
        text = joined(WIDE + [b"@3124 r5 cmd 41"] * externals + [b"end"])
        for lines in ([b"run", b"run", b"until 3125", b"step", b"last", b"where"],
                      [b"until 3124", b"step 64", b"until 3124", b"until 3125", b"step 3", b"run", b"show r5"],
                      [b"break at 3124 0", b"until 3124", b"step 200000", b"until 3124", b"queue r5"]):
            comparison.compare(words, text + joined(lines))
    for size in (MOST_INPUT - 1, MOST_INPUT, MOST_INPUT + 1, MOST_INPUT + 2):
        for text in (b"defined 1\n", LEAST[0], case, case + b"step\n", case + b"step\nquit\n", case + b"trace\n",
                     case + b"trace\nend trace ", case + b"break body "):
            comparison.compare(words, text + b"4" * (size - len(text)))
            comparison.compare(words, text + b"4" * (size - len(text) - 1) + b"\n")
            comparison.compare(words, text + b"4" * (size - len(text) - 2) + b"\n4")


COUNT = 0
FIRST = (rows, messages, bodies, sizes, live, debug)
PIECES = (sizes,)
