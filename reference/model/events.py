"""Keys, ties, inputs and the order of events.

An input is `(kind, number, body)`: the kind in the order Tick, Cmd, Down, Up,
Msg; the group of a tick or the port; the body's bytes. A key is
`(group, sum, class, tie, origin, seq)`. An event is `(key, router, input)`.
Python's order of tuples is then the order of events.
"""

from .numbers import U64_MAX

TICK, CMD, DOWN, UP, MSG = range(5)

GOLDEN = 0x9E3779B97F4A7C15


def fin(z):
    """The mixing function of the ties and of the schedule."""
    z = ((z ^ (z >> 30)) * 0xBF58476D1CE4E5B9) & U64_MAX
    z = ((z ^ (z >> 27)) * 0x94D049BB133111EB) & U64_MAX
    return z ^ (z >> 31)


def draw(h, value=0):
    """One round: `fin(h + 0x9E37.. + value)`, wrapping at 64 bits."""
    return fin((h + GOLDEN + value) & U64_MAX)


def tie(seed, group, total, origin, seq):
    """The tie of a message: 0 where the seed is 0, else four rounds."""
    if seed == 0:
        return 0
    h = seed
    for value in (group, total, origin, seq):
        h = draw(h, value)
    return h


def tick_event(router, group):
    """The tick of a router in a group."""
    return ((group, 0, 0, 0, router, 0), router, (TICK, group, b""))


def external_event(external, place):
    """The event of the external at this place of the feed."""
    key = (external.group, 0, 1, 0, external.router, place)
    return (key, external.router, external.entry)


def message_event(case, cause, end, origin, seq, body):
    """The message that an event causes over a link end, or None past the run.

    `end` is (far router, far port, delay), and `cause` the event that sends.
    """
    far, far_port, delay = end
    moment = cause[0][0] * case.period + cause[0][1] + delay
    group, total = divmod(moment, case.period)
    if group >= case.groups:
        return None
    key = (group, total, 2, tie(case.seed, group, total, origin, seq), origin, seq)
    return (key, far, (MSG, far_port, body))


def input_text(entry):
    """How a trace row writes an input."""
    kind, number, body = entry
    if kind == TICK:
        return b"tick"
    if kind == CMD:
        return b"cmd " + body.hex().encode()
    if kind == MSG:
        return b"msg %d %s" % (number, body.hex().encode() or b"-")
    return b"%s %d" % (b"down" if kind == DOWN else b"up", number)
