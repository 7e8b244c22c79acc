"""`run --live`: good lines, bad ones, headers with a fault, and where a feed ends."""

from inputs import edits
from inputs.casetexts import TINY, an_input, some_case
from inputs.livelines import a_front, an_ending, an_odd_line, feed_of, half_line, live_lines


def words(rng):
    """The words of a live run."""
    options = [[b"--live"], [b"--workers", b"%d" % rng.choice((1, 2, 4, 16))], [b"--journal"]]
    some = [options[0], *(option for option in options[1:] if rng.random() < 0.3)]
    rng.shuffle(some)
    return [b"run", *(word for option in some for word in option)]


def good(rng, comparison):
    """A feed without a fault."""
    front, names, ports = a_front(rng)
    comparison.compare(words(rng), front + feed_of(live_lines(rng, names, ports), an_ending(rng)))


def bad(rng, comparison):
    """A feed with one or two lines that mostly have no reading."""
    front, names, ports = a_front(rng)
    lines = live_lines(rng, names, ports)
    for _ in range(rng.choice((1, 1, 2))):
        lines.insert(rng.randint(0, len(lines)), an_odd_line(rng, names, ports))
    comparison.compare(words(rng), front + feed_of(lines, an_ending(rng)))


def half(rng, comparison):
    """A feed whose last line has no newline."""
    front, names, ports = a_front(rng)
    lines = live_lines(rng, names, ports)
    if rng.random() < 0.3:
        lines += [b"end"]
    comparison.compare(words(rng), front + feed_of(lines, half_line(rng, names, ports)))


def wrong_front(rng, comparison):
    """A front with an edit, and a feed behind it."""
    front, names, ports = a_front(rng)
    lines = front.split(b"\n")[:-1]
    what = rng.randrange(3)
    if what == 0:
        front = feed_of(edits.edit_lines(rng, lines))
    elif what == 1:
        front = feed_of(edits.edit_field(rng, lines))
    else:
        front = edits.edit_bytes(rng, front)
    comparison.compare(words(rng), front + feed_of(live_lines(rng, names, ports), an_ending(rng)))


def edited(rng, comparison):
    """A front and a feed with edits of bytes."""
    front, names, ports = a_front(rng, (TINY,))
    text = front + feed_of(live_lines(rng, names, ports), an_ending(rng))
    for _ in range(rng.choice((1, 2))):
        text = edits.edit_bytes(rng, text)
    comparison.compare(words(rng), text)


def stamped(rng, comparison):
    """A case as a file has it: its external lines have a group, and are no live lines."""
    text, _ = some_case(rng)
    comparison.compare(words(rng), text)


def fronts(rng, comparison):
    """Every front of one tiny input."""
    front, names, ports = a_front(rng, (TINY,))
    text = front + feed_of([an_input(rng, names, ports) for _ in range(3)], b"end\nx")
    for place in range(len(text) + 1):
        comparison.compare([b"run", b"--live"], text[:place])


def paced(rng, comparison):
    """A feed that comes in two pieces, more than a second between them: the clock is heard."""
    front, names, ports = a_front(rng)
    first, second = (feed_of([an_input(rng, names, ports) for _ in range(3)]) for _ in range(2))
    comparison.compare([b"run", b"--live", b"--journal"], front + first + second + b"end\n", len(front + first))


COUNT = 500
FIRST = (fronts, paced)
PIECES = (good, good, good, bad, bad, bad, half, wrong_front, wrong_front, edited, stamped)
