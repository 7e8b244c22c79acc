"""Case texts: valid ones, edited ones, fronts, and lines near every limit."""

from inputs import edits
from inputs.casetexts import ANY, FLOOD, FULL, TINY, a_case, joined
from model.case import KINDS
from model.casetext import prefix_line
from model.numbers import U64_MAX

PAST_WORD = b"%d" % (U64_MAX + 1)
RERUN = [b"rerun"]
RUNS = ([b"run"], [b"lockstep"])
COMMANDS = (*RUNS, [b"check"], RERUN, [b"shake", b"7", b"--steps", b"1"])


def valid(rng, comparison):
    """A valid text, alone or with trash behind."""
    behind = rng.choice((b"", b"", b"x", b"trace\n", b"journal\n", b"end\n", b"\xff\x00"))
    comparison.compare(rng.choice(COMMANDS), joined(a_case(rng, rng.choice((FLOOD, ANY)))) + behind)


def recording(rng, comparison):
    """A valid text and its run."""
    comparison.compare(rng.choice(RUNS), joined(a_case(rng, ANY)))


def full(rng, comparison):
    """A text near to all limits."""
    comparison.compare(RERUN, joined(a_case(rng, FULL)))


def mutated(rng, comparison):
    """A valid text with one to four edits."""
    lines = a_case(rng, rng.choice((ANY, TINY, FLOOD)))
    for _ in range(rng.choice((1, 1, 1, 2, 4))):
        if lines:
            lines = rng.choice((edits.edit_lines, edits.edit_field))(rng, lines)
    text = joined(lines)
    if rng.random() < 0.35:
        for _ in range(rng.choice((1, 1, 2))):
            text = edits.edit_bytes(rng, text)
    comparison.compare(rng.choice(COMMANDS), text)


def fronts(rng, comparison):
    """Every front of one tiny text."""
    text = joined(a_case(rng, TINY))
    words = rng.choice(COMMANDS)
    for place in range(len(text) + 1):
        comparison.compare(words, text[:place])


def nothing(_, comparison):
    """No bytes at all, for each command."""
    for words in COMMANDS:
        comparison.compare(words, b"")


def base(rng, routers, kinds):
    """The first lines of a case with these many routers, and their names."""
    names = [b"r%d" % n for n in range(routers)]
    lines = [b"defined 1", b"period 100", b"groups 8", b"seed 0"]
    lines += [b"router %s %s" % (n, rng.choice(kinds)) for n in names]
    return lines, names


def near(rng, good, least, greatest):
    """A number in or just past its range, or past u64."""
    return b"%d" % rng.choice((good, good, good, least, greatest, least - 1 if least else 0,
                               greatest + 1, U64_MAX, U64_MAX + 1, 10 ** 30))


def near_router(rng, comparison):
    """A router line where few or 64 routers stand."""
    lines, names = base(rng, rng.choice((1, 2, 63, 64, 64)), KINDS)
    name = rng.choice(names + [b"new", b"new", b"new", b"toolongforaname12", b"Upper"])
    line = b"router %s %s" % (name, rng.choice((b"flood", b"ospf", b"rip", b"isis")))
    finish(rng, comparison, lines + [line])


def near_link(rng, comparison):
    """A link line where few or 256 links stand and some routers are full."""
    lines, names = base(rng, 40, (b"flood",))
    full = rng.choice((0, 15, 16, 16))
    lines += [b"link r0 r%d 1 1" % (1 + n) for n in range(full)]
    if rng.random() < 0.3:
        want = rng.choice((255, 256, 256))
        pairs = [(a, b) for a in range(20, 40) for b in range(a + 1, 40)]
        lines += [b"link r%d r%d 1 1" % pair for pair in balanced(pairs, want - full)]
    pick = [b"r0", b"r0", b"r17", b"r18", b"nobody", b"x"]
    a, b = rng.choice(pick), rng.choice(pick)
    line = b"link %s %s %s %s" % (a, b, near(rng, 5, 1, 1_000_000), near(rng, 5, 1, 65_535))
    finish(rng, comparison, lines + [line])


def balanced(pairs, want):
    """As many pairs as wanted, no number in more than 16 of them."""
    used, taken = {}, []
    while len(taken) < want:
        before = len(taken)
        for a, b in pairs:
            if len(taken) < want and max(used.get(a, 0), used.get(b, 0)) < 16:
                used[a], used[b] = used.get(a, 0) + 1, used.get(b, 0) + 1
                taken.append((a, b))
        if len(taken) == before:
            break
    return taken


def near_prefix(rng, comparison):
    """A prefix line where few or 32 prefixes of the router stand."""
    lines = [b"defined 1", b"period 100", b"groups 8", b"seed 0", b"router f flood",
             b"router o ospf", b"router r rip"]
    held = rng.choice((0, 1, 31, 32, 32))
    for name in (b"o", b"r"):
        lines += [prefix_line(name, (10 << 24 | n << 8, 24, 1)) for n in range(held)]
    name = rng.choice((b"f", b"o", b"o", b"r", b"r", b"nobody"))
    length = rng.choice((b"24", b"24", b"24", b"24", b"0", b"8", b"32", b"33", b"30", PAST_WORD))
    cost = rng.choice((b"1", b"1", b"0", b"15", b"16", b"65535", b"65536", PAST_WORD))
    finish(rng, comparison, lines + [b"prefix %s %s/%s %s" % (name, near_address(rng), length, cost)])


def near_address(rng):
    """An address, sometimes with a part in or past its range."""
    parts = [b"10", b"0", b"%d" % rng.randrange(34), b"0"]
    others = (b"10", b"0", b"0", b"1", b"255", b"256", b"31", PAST_WORD)
    return b".".join(rng.choice(others) if rng.random() < 0.3 else part for part in parts)


def near_external(rng, comparison):
    """An external line after one of group 3."""
    lines, _ = base(rng, 18, KINDS)
    lines += [b"link r0 r%d 1 1" % (n + 1) for n in range(rng.choice((0, 1, 15, 16)))]
    lines.append(b"feed")
    if rng.random() < 0.7:
        lines.append(b"@3 r0 cmd 00")
    group = rng.choice((b"3", b"3", b"4", b"7", b"8", b"2", b"0", b"4096", PAST_WORD))
    name = rng.choice((b"r0", b"r0", b"r1", b"r17", b"nobody"))
    port = rng.choice((b"0", b"1", b"14", b"15", b"16", b"17", b"255", b"256", PAST_WORD))
    what = rng.choice((b"down " + port, b"up " + port, b"cmd " + b"00" * rng.choice((1, 255, 256, 257))))
    finish(rng, comparison, lines + [b"@%s %s %s" % (group, name, what)])


def near_first(rng, comparison):
    """The first four lines with numbers in and past their ranges."""
    lines = [b"defined " + rng.choice((b"1", b"1", b"1", b"1", b"0", b"2", b"01", PAST_WORD, b"x"))]
    lines.append(b"period " + near(rng, 5, 1, 1_000_000))
    lines.append(b"groups " + near(rng, 5, 1, 4096))
    lines.append(b"seed " + near(rng, 5, 0, (1 << 64) - 1))
    place = rng.randint(1, 4)
    finish(rng, comparison, lines[:place] if rng.random() < 0.5 else lines + [b"router a flood"])


def finish(rng, comparison, lines):
    """Compares the text whose last line is tried, with or without a newline."""
    text = joined(lines)
    ending = rng.randrange(4)
    if ending == 0:
        text = text[:-1]
    elif ending == 1 and b"feed\n" in text:
        text += b"end\n"
    elif ending == 1:
        text += b"feed\nend\n"
    comparison.compare(rng.choice(COMMANDS), text)


COUNT = 1300
FIRST = (fronts, fronts, nothing) + (full,) * 8
PIECES = (valid, valid, recording, mutated, mutated, mutated, mutated, near_router, near_link,
          near_prefix, near_prefix, near_external, near_external, near_first)
