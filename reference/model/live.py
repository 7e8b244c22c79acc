"""Live feeds: externals that come by lines after a header, and are stamped with the beats of a clock."""

from .case import External
from .casetext import Fault, external_of, read_case
from .causes import external_causes_of_step
from .lines import FULL, REST, TOO_BIG
from .shapes import live_shape


def read_header(front):
    """The case without externals of a text up to its line `feed`; raises `Fault`."""
    is_whole = front == b"feed\n" or front.endswith(b"\nfeed\n")
    return read_case(front + b"end\n" * is_whole)[0]


def stamp_of(case, before, beats, place):
    """The group of the external at a place, by the group before and the beats: the last one is heard again."""
    beat = beats[min(place, len(beats) - 1)] if beats else 0
    return min(case.groups - 1, max(before, beat))


def live_external(case, line, number):
    """The external of a live line, in group 0; raises `Fault`."""
    values = live_shape(line.split(b" "))
    if values is None:
        raise Fault(number, ["syntax"])
    causes = external_causes_of_step(case, (0, *values))
    if causes:
        raise Fault(number, causes)
    return external_of(case, (0, *values))


def read_feed(case, lines, beats):
    """Reads live lines into the feed of the case. Tells whether they were too big; raises the `Fault` of a bad one."""
    stamp = 0
    while True:
        kind, line = lines.next()
        if kind == REST:
            raise Fault(lines.number, ["syntax"])
        if kind != FULL or line == b"end":
            return kind == TOO_BIG
        external = live_external(case, line, lines.number)
        stamp = stamp_of(case, stamp, beats, len(case.feed))
        case.feed.append(External(stamp, external.router, external.entry))


def stamps_written(recording):
    """The stamps of the external lines of a recording that a program wrote."""
    front = recording[:recording.find(b"\nend\n") + 1]
    words = [line[1:].split(b" ")[0] for line in front.split(b"\n") if line[:1] == b"@"]
    return [int(word) for word in words if word.isdigit() and len(word) < 10]
