"""Journal text both ways.

A step is a tuple: `("beacon",)`, `("inject", External)`, `("close",)`,
`("deliver", place)`, `("handle", router)`, `("rollback", router)` or
`("commit",)`.
"""

from .casetext import external_line, external_of, line_at
from .causes import external_causes_of_step
from .numbers import U64_MAX, decimal
from .shapes import external_shape


class JournalFault(Exception):
    """The first bad line of a journal section, counted from its own start."""

    def __init__(self, line):
        self.line = line
        super().__init__("journal line %d" % line)


def read_step(case, line):
    """The step that a line spells, or None."""
    fields = line.split(b" ")
    word = fields[0]
    if len(fields) == 1 and word in (b"beacon", b"close", b"commit"):
        return (word.decode(),)
    if len(fields) == 2 and word == b"deliver":
        place = decimal(fields[1])
        return None if place is None or place > U64_MAX else ("deliver", place)
    if len(fields) == 2 and word in (b"handle", b"rollback"):
        router = case.router_number(fields[1])
        return None if router is None else (word.decode(), router)
    if len(fields) == 5 and word == b"inject" and fields[1][:1] == b"@":
        return inject_step(case, fields)
    return None


def inject_step(case, fields):
    """The inject step of five fields, or None."""
    shape = external_shape(fields[1][1:], fields[2:])
    if shape is None or external_causes_of_step(case, shape[1]):
        return None
    return ("inject", external_of(case, shape[1]))


def is_last_line(line, count):
    """Whether the line is `end journal N` with N the number of steps."""
    return line == b"end journal %d" % count


def read_journal(case, text):
    """The steps of a text that is a whole journal section; raises the fault."""
    steps, place, number = [], 0, 0
    while True:
        number += 1
        line, place = next_line(text, place, number)
        if number == 1:
            if line != b"journal":
                raise JournalFault(1)
        elif is_last_line(line, len(steps)):
            break
        else:
            steps.append(good_step(case, line, number))
    if place != len(text):
        raise JournalFault(number + 1)
    return steps


def next_line(text, place, number):
    """The line at a place and the place after it; raises where there is none."""
    if place == len(text):
        raise JournalFault(number)
    line, ended = line_at(text, place)
    if not ended:
        raise JournalFault(number)
    return line, place + len(line) + 1


def good_step(case, line, number):
    """The step of a line; raises where the line spells none."""
    step = read_step(case, line)
    if step is None:
        raise JournalFault(number)
    return step


def step_line(case, step):
    """The line of a step."""
    word = step[0].encode()
    if step[0] == "inject":
        return b"inject " + external_line(case, step[1])
    if step[0] == "deliver":
        return b"deliver %d" % step[1]
    if step[0] in ("handle", "rollback"):
        return word + b" " + case.routers[step[1]].name
    return word


def write_journal(case, steps):
    """The journal section of a list of steps."""
    lines = [b"journal"] + [step_line(case, step) for step in steps]
    return b"".join(line + b"\n" for line in lines + [b"end journal %d" % len(steps)])
