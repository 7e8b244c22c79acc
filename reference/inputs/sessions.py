"""Sessions of the debugger: cases, and commands that fit the rows of their runs."""

from model.case import Case, External, Router
from model.casetext import write_case
from model.events import CMD, DOWN, MSG, UP
from model.lockstep import Run
from model.numbers import U64_MAX
from model.octets import packed

from . import edits
from .casetexts import FLOOD, MIXED, TINY, some_case

NET = (0x0A090000, 16)
NAMES = (b"storm", b"lost", b"loop")
ODD_COMMANDS = [b"", b" ", b"step ", b" step", b"Step", b"STEP 1", b"step 0", b"step 00", b"step 01", b"step -1", b"step +1",
                b"step 200000", b"step 200001", b"step 4294967297", b"step 18446744073709551617", b"step 1 1", b"step a",
                b"steps", b"s", b"run 1", b"run ", b"run\r", b"until", b"until a", b"until 4294967295", b"until 4294967296",
                b"until 18446744073709551616", b"until 00", b"until 0 0", b"break", b"break 0", b"break at", b"break at 0",
                b"break at 0 0 0", b"break at 4294967295 4294967295", b"break at 4294967296 0", b"break at 0 4294967296",
                b"break at 00 0", b"break at 0 ", b"break  at 0 0", b"break router", b"break router nobody",
                b"break router A", b"break router a b", b"break port a", b"break port a 15", b"break port a 16",
                b"break port a 255", b"break port a 256", b"break port a 4294967296", b"break port nobody 0",
                b"break port a 0 0", b"break port 0 a", b"break body", b"break body 4", b"break body 4G", b"break body AB",
                b"break body -", b"break body 41 42", b"break body " + b"00" * 300, b"break storm", b"watch", b"watch a",
                b"watch Storm", b"watch storm lost", b"watch ", b"watch loop ", b"watch loops", b"unwatch", b"unwatch a",
                b"unwatch storm storm", b"show", b"show nobody", b"show a b", b"show 0", b"show ", b"show\ta", b"queue",
                b"queue nobody", b"queue 0", b"queue a 0", b"where 0", b"where ", b"last 1", b"last 16", b"quit ", b"quit 0",
                b"Quit", b"exit", b"q", b"end", b"help", b"?", b"# run", b"trace", b"end trace 3", b"defined 1", b"feed",
                b"back", b"back 1", b"run until 3", b"\x00", b"\xff", b"show a\x00", b"run\x0b", b"x" * 5000]


# -- cases

def small(rng):
    """A small case of any kinds."""
    return some_case(rng, (TINY, TINY, MIXED, FLOOD))


def written(case):
    """A case and its text."""
    return write_case(case), case


def network(rng, kind, count, groups, pairs):
    """A case of so many routers of a kind, with links of various delays and costs."""
    case = Case(rng.choice((10, 100, 100)), groups, rng.choice((0, 0, rng.getrandbits(64))))
    case.routers += [Router(b"%c" % (97 + number), kind) for number in range(count)]
    for a, b in pairs:
        delay = rng.choice((1, rng.randint(1, case.period), rng.randint(1, 5 * case.period)))
        case.add_link(a, b, delay, rng.choice((1, 1, 1, 2, 3)))
    return case


def ring(rng, count):
    """The links of a ring, in any order."""
    pairs = [(number, (number + 1) % count) for number in range(count)][:count if count > 2 else 1]
    rng.shuffle(pairs)
    return pairs


def put(rng, case, externals):
    """Sets the feed, in the order of the groups."""
    case.feed = sorted((one for one in externals if one.group < case.groups), key=lambda one: one.group)
    return written(case)


def flaps(rng, case, begin, end, count):
    """Links that go down at both ends, or at one, and mostly come up again."""
    found = []
    for _ in range(count):
        link, group = rng.choice(case.links), rng.randint(begin, end)
        ends = [(link.a, link.a_port), (link.b, link.b_port)][:rng.choice((1, 2, 2))]
        later = group + rng.choice((1, 5, 20, 45))
        for router, port in ends:
            found.append(External(group, router, (DOWN, port, b"")))
            if rng.random() < 0.7:
                found.append(External(later, router, (UP, port, b"")))
    return found


def rip_networks(rng):
    """Three to six RIP routers; links go down, and a network is withdrawn or set by another router."""
    count = rng.choice((3, 3, 4, 5, 6))
    case = network(rng, b"rip", count, rng.choice((60, 120, 200)), ring(rng, count))
    case.routers[0].prefixes.append((*NET, rng.choice((1, 1, 2))))
    if rng.random() < 0.5:
        case.routers[-1].prefixes.append((0x0A0A0000, 16, 1))
    feed = flaps(rng, case, 3, 50, rng.choice((1, 2, 3)))
    if rng.random() < 0.6:
        feed.append(External(rng.randint(5, 50), 0, (CMD, 0, packed((2, 1), (NET[0], 4), (NET[1], 1)))))
    if rng.random() < 0.3:
        feed.append(External(rng.randint(5, 50), 1, (CMD, 0, packed((1, 1), (NET[0], 4), (NET[1], 1), (1, 2)))))
    return put(rng, case, feed)


def ospf_networks(rng):
    """Two to six OSPF routers; links go down and up, and a network is withdrawn."""
    count = rng.choice((2, 3, 4, 5, 6))
    case = network(rng, b"ospf", count, rng.choice((40, 70, 100)), ring(rng, count) + [(0, 1)] * rng.randint(0, 1))
    for router in case.routers[:rng.choice((1, 2, count))]:
        router.prefixes.append((*NET, rng.choice((1, 1, 5))))
    case.routers[-1].prefixes.append((0xC0A80000, 24, 1))
    feed = flaps(rng, case, 15, 60, rng.choice((1, 2, 3)))
    if rng.random() < 0.5:
        feed.append(External(rng.randint(15, 60), 0, (CMD, 0, packed((2, 1), (NET[0], 4), (NET[1], 1)))))
    return put(rng, case, feed)


def stormy(rng):
    """Flooding routers, each linked with each; many bodies in few groups."""
    count = rng.choice((5, 6))
    pairs = [(a, b) for a in range(count) for b in range(a)]
    case = network(rng, b"flood", count, rng.choice((2, 8)), pairs)
    feed = [External(rng.choice((0, 0, 1)), rng.randrange(count), (CMD, 0, b"%d" % number)) for number in range(70)]
    return put(rng, case, feed)


def counted_storm(rng, messages):
    """Two flooding routers, and so many messages in group 0 and in group 1."""
    case = Case(100, 3, 0, [Router(b"a", b"flood"), Router(b"b", b"flood")])
    case.add_link(0, 1, 10, 1)
    return put(rng, case, [External(number // messages, 0, (CMD, 0, b"%d" % number)) for number in range(2 * messages)])


# -- commands

def rows_of(case):
    """The rows of the case's run."""
    run = Run(case)
    run.go()
    return run.rows


def a_break(rng, case, rows):
    """A break that matches a row of the run, or nearly so."""
    (group, total, *_), router, (kind, number, body) = rng.choice(rows)
    name, port = case.routers[router].name, number if kind == MSG else rng.randrange(3)
    start = body[:rng.randint(1, max(1, len(body)))] or rng.choice((b"A", b"\x02", b"\x02\x01"))
    return rng.choice((b"break at %d %d" % (group, rng.choice((total, total, 0))), b"break router " + name,
                       b"break port %s %d" % (name, port), b"break body " + start.hex().encode()))


def going(rng, case, rows):
    """A command that handles rows."""
    steps = rng.choice((1, 2, 3, 5, 20, rng.randint(1, len(rows)), len(rows), len(rows) + 1))
    until = rng.randint(0, rng.choice((case.groups // 3, case.groups // 2, case.groups + 1)))
    return rng.choice((b"step", b"step 2", b"step 7", b"step %d" % steps, b"run", b"until %d" % until, b"until %d" % until))


def looking(rng, case, _):
    """A command that shows something."""
    name = rng.choice(case.routers).name
    return rng.choice((b"show " + name, b"show " + name, b"queue " + name, b"where", b"last"))


def probing(rng, *_):
    """A command that attaches a probe or drops it."""
    return rng.choice((b"watch ", b"watch ", b"unwatch ")) + rng.choice(NAMES)


def odd(rng, case, rows):
    """A line that mostly isn't a command: of `ODD_COMMANDS`, or a command with an edit of a field or a byte."""
    what = rng.randrange(3)
    if what == 0:
        return rng.choice(ODD_COMMANDS).replace(b" a", b" " + case.routers[0].name, 1)
    line = a_command(rng, case, rows)
    if what == 1:
        return edits.edit_field(rng, [line])[0]
    return edits.edit_bytes(rng, line).replace(b"\n", b"")


def a_command(rng, case, rows):
    """A command."""
    return rng.choice((going, going, looking, looking, probing, a_break))(rng, case, rows)


def commands(rng, case, rows, odd_rate=0.1):
    """The lines of a session; often it begins with breaks and probes."""
    first = [rng.choice((a_break, probing))(rng, case, rows) for _ in range(rng.choice((0, 1, 3, 6)))]
    drawn = [odd if rng.random() < odd_rate else a_command for _ in range(rng.choice((3, 8, 15, 30)))]
    return first + [one(rng, case, rows) for one in drawn]


def a_quit(rng):
    """What ends a session: the end of the input, a line without a newline, or `quit` with anything behind it."""
    return rng.choice((b"", b"", b"where", b"quit", b"step", b"x", b"quit\n", b"quit\nrun\n", b"quit\n\xff\x00"))


def watching(rng, case):
    """The lines of a session that follows all probes to the end of the run, stop by stop."""
    names = list(NAMES)
    rng.shuffle(names)
    lines = [b"watch " + name for name in names]
    for _ in range(rng.choice((5, 15, 30))):
        name = rng.choice(case.routers).name
        lines += [b"run", rng.choice((b"show " + name, b"last", b"where", b"queue " + name, b"step"))]
    return lines + [b"unwatch " + name for name in names] + [b"run"]


def number_lines(rng):
    """Commands with numbers in and past their ranges."""
    number = rng.choice((0, 1, 15, 16, 200_000, 200_001, 4_294_967_295, 4_294_967_296, U64_MAX, U64_MAX + 1))
    return [line % number for line in (b"until %d", b"break at %d 0", b"break at 0 %d", b"break port a %d", b"step %d")]
