"""Live feeds: the front of a case, and live lines behind it, good ones and bad ones."""

from model.numbers import U64_MAX

from . import edits
from .casetexts import ANY, BUSY, FLOOD, MIXED, TINY, an_input, joined, some_case

PAST_WORD = b"%d" % (U64_MAX + 1)
ODD_LINES = [b"", b" ", b"feed", b"end ", b" end", b"End", b"end\r", b"end end", b"end 0", b"a", b"cmd", b"a cmd",
             b"a cmd 4", b"a cmd 4G", b"a cmd AB", b"a cmd -", b"a  cmd 41", b"a cmd 41 ", b" a cmd 41", b"a cmd  41",
             b"a cmd 41 42", b"@0 a cmd 41", b"@ a cmd 41", b"0 a cmd 41", b"a Cmd 41", b"a msg 0 41", b"a tick",
             b"a down", b"a down 00", b"a down -1", b"a down 0 0", b"a up +0", b"a up 0x0", b"A cmd 41", b"9 cmd 41",
             b"nobody cmd 41", b"nobody down 16", b"nobody up 0", b"abcdefghijklmnopq cmd 41", b"trace", b"journal",
             b"defined 1", b"router z flood", b"\x00", b"\xff cmd 41", b"a cmd 41\x00", b"a\tcmd\t41", b"#"]


def a_front(rng, shapes=(TINY, TINY, BUSY, FLOOD, MIXED, ANY)):
    """The text of a case up to its line `feed`, the names of its routers, and how many ports each has."""
    text, case = some_case(rng, shapes)
    names = [router.name for router in case.routers]
    return text[:text.index(b"\nfeed\n") + 6], names, {name: case.port_count(n) for n, name in enumerate(names)}


def live_lines(rng, names, ports):
    """Good live lines."""
    return [an_input(rng, names, ports) for _ in range(rng.choice((0, 1, 2, 5, 10, 40)))]


def an_odd_line(rng, names, ports):
    """A line that mostly has no reading: of `ODD_LINES`, a good one with an edit, or one near a limit."""
    what = rng.randrange(3)
    if what == 0:
        return rng.choice(ODD_LINES).replace(b"a ", names[0] + b" ", 1)
    if what == 1:
        return edits.edit_field(rng, [an_input(rng, names, ports)])[0]
    return near_line(rng, names, ports)


def near_line(rng, names, ports):
    """A line with a name, port or body at or past its limit."""
    name = rng.choice(names)
    count = ports[name]
    port = rng.choice((b"0", b"%d" % max(count - 1, 0), b"%d" % count, b"15", b"16", b"255", b"256", PAST_WORD))
    name = rng.choice((name, name, name, name, b"nobody"))
    return b"%s %s" % (name, rng.choice((b"down " + port, b"up " + port, b"cmd " + b"00" * rng.choice((1, 255, 256)))))


def an_ending(rng):
    """What closes a feed: the line `end`, with anything behind it, or the end of the input."""
    return rng.choice((b"end\n", b"end\n", b"", b"end\nend\n", b"end\nnobody cmd 41\n", b"end\n\xff", b"end\ntrace\n"))


def half_line(rng, names, ports):
    """A last line without a newline."""
    whole = an_input(rng, names, ports)
    return rng.choice((whole, whole[:rng.randint(1, len(whole))], b"end", b"e", b"feed", b" ", b"nobody cmd 41", b"\x00"))


def feed_of(lines, ending=b""):
    """The bytes of live lines and of an ending."""
    return joined(lines) + ending
