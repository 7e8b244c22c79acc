"""The line with which the program refused an input, in words.

What a line says is compared with what the rules say of the input, so that a line of another input is told as such.
"""

import os
import re
import subprocess
from collections.abc import Callable
from dataclasses import dataclass

from model import casetext, journal, replay, trace
from model.case import Case
from model.causes import TABLE, external_causes_of_step
from model.journal import read_step
from model.program import first_difference
from model.shapes import external_shape

from .casefaults import (bad_line, case_fault_words, external_field_words, external_range, port_fault, unknown_words)
from .reading import read_case
from .spelling import counted, name_fault, number_fault, oddities, quoted, repaired
from .steps import Walk
from .tool import TOP, BadInput

CAUSES = "|".join((*TABLE, "journal"))
OTHERS = "open|usage|cut|too big|read fault|write fault|no memory"
LINE = re.compile(r"(?:defined: )?(?:line (\d+): (%s)|illegal step (\d+)|differs at (\d+)|(%s))\s*" % (CAUSES, OTHERS))
COMMANDS = """defined lockstep < CASE                      handles the case; writes the recording and the trace
defined run [--workers N] [--journal] < CASE the same on N threads (1 to 16), with their journal if asked
    with --live < HEAD-AND-LINES             the same of lines that come while it runs
defined check < CASE-AND-TRACE               is the trace the case's?
defined rerun < CASE-AND-JOURNAL             takes the journal's steps
defined shake NUMBER --steps M < CASE        takes steps drawn from NUMBER, at most M (1 to 1,000,000)"""
STEP_FORMS = ("beacon", "inject @GROUP NAME cmd HEX (or down PORT, or up PORT)", "close", "deliver PLACE",
              "handle NAME", "rollback NAME", "commit", "end journal N")
STEP_WORDS = ("beacon", "inject", "close", "deliver", "handle", "rollback", "commit", "end")


@dataclass
class Told:
    """The program's line, taken apart: what it says, and its number (of a line, step or byte)."""

    what: str
    number: int = 0


def told_of(line: str) -> Told | None:
    """What a line of the program says, or None if it is no such line."""
    found = LINE.fullmatch(line.strip())
    if found is None:
        return None
    number, cause, step, byte, other = found.groups()
    if number:
        return Told(cause, int(number))
    if step or byte:
        return Told("illegal step" if step else "differs", int(step or byte))
    return Told(other)


def refusal_words(line: str, data: bytes) -> list[str]:
    """The program's line about an input in words; raises `BadInput` if the line isn't one, or not of this input."""
    told = told_of(line)
    if told is None:
        raise BadInput("this is no line of the program: %s" % line)
    plain = PLAIN.get(told.what)
    if plain is not None:
        return plain
    if told.what == "too big":
        return too_big_words(data)
    bad = bad_line(data)
    if told.what in ("illegal step", "open", "differs", "journal", "cut"):
        if bad is not None:
            raise BadInput("the line isn't about this input, which begins with no case:\n  "
                           + "\n  ".join(case_fault_words(bad)))
        return AFTER_CASES[told.what](told, data)
    if bad is None or (bad.number, bad.cause) != (told.number, told.what):
        found = "begins with a case" if bad is None else "has its first bad line at %d (%s)" % (bad.number, bad.cause)
        raise BadInput("the line isn't about this input, which %s" % found)
    return case_fault_words(bad)


PLAIN = {
    "usage": ["the arguments are none of its commands:", *COMMANDS.split("\n")],
    "read fault": ["standard input can't be read: it is closed, or a folder; give a file: ./defined run < FILE"],
    "write fault": ["standard output can't be written: it is closed, or the disk or the pipe that takes it is full or "
                    "gone; what was written is a beginning of the output"],
    "no memory": ["memory was short; what was written, if anything, is a beginning of the output"],
}


def too_big_words(data: bytes) -> list[str]:
    """Too many bytes."""
    return ["the input has %s bytes, and at most 16,777,216 are read" % format(len(data), ",")]


# -- journals


@dataclass
class Section:
    """The journal of an input: its lines without newlines, whether the last one has one, and its first line, from 1."""

    case: Case
    text: bytes
    first: int
    is_behind_unfinished: bool

    @property
    def lines(self) -> list[bytes]:
        """The lines; one without newline at the end counts."""
        lines = self.text.split(b"\n")
        return lines if lines[-1] else lines[:-1]


def section_of(data: bytes) -> Section:
    """What comes after the case and its trace."""
    case, length = read_case(data)
    begin = length + trace.split_trace(data[length:])
    front = data[:begin]
    return Section(case, data[begin:], trace.line_count(front) + 1, is_unfinished(data[length:begin]))


def is_unfinished(section: bytes) -> bool:
    """Whether a trace section has no last line."""
    return bool(section) and not re.search(rb"(^|\n)(end trace |cut )[^\n]*\n\Z", section)


def journal_words(told: Told, data: bytes) -> list[str]:
    """`line N: journal`."""
    section = section_of(data)
    try:
        journal.read_journal(section.case, section.text)
    except journal.JournalFault as fault:
        number = section.first + fault.line - 1
        if number != told.number:
            raise BadInput("the line isn't about this input, whose first bad line is %d (journal)" % number) from fault
        return journal_line_words(section, fault.line, number)
    raise BadInput("the line isn't about this input, which has a right journal")


def journal_line_words(section: Section, place: int, number: int) -> list[str]:
    """What is wrong with a line of the journal, the place-th of it."""
    lines = section.lines
    if section.is_behind_unfinished:
        return ["line %d: the trace before it has no last line (end trace N), so all up to the end is taken as trace, "
                "and no journal is left; take the trace out, or end it" % number]
    if place > len(lines):
        missing = '"journal", the first line of a journal' if place == 1 else '"end journal %d"' % (place - 2)
        return ["line %d: the text ends here; expected %s" % (number, missing)]
    line, is_ended = lines[place - 1], place < len(lines) or section.text.endswith(b"\n")
    if place > 1 and any(is_end(found) for found in lines[:place - 1]):
        return ["line %d: the journal has ended, and nothing may follow it, found %s" % (number, quoted(line))]
    if place == 1:
        words = ['line %d: expected "journal", found %s' % (number, quoted(line))]
        return words + oddities(line, 2) + newline_words(is_ended) + [
            "the case ends above it; after a case may come its trace, and after these must come a journal"]
    words = ["line %d: expected a step, or the end of the journal, found %s" % (number, quoted(line))]
    words += oddities(line, 2) + newline_words(is_ended)
    fixed = repaired(line) if oddities(line, 2) else line
    if fixed != line and (is_step(section.case, fixed) or fixed == b"end journal %d" % (place - 2)):
        return words + ["it is right so: %s" % quoted(fixed)]
    return words + step_fault(section.case, fixed, place - 2)


def is_step(case: Case, line: bytes) -> bool:
    """Whether a line is a step's."""
    return read_step(case, line) is not None


def is_end(line: bytes) -> bool:
    """Whether a line is the last of a journal."""
    return line.startswith(b"end journal ")


def newline_words(is_ended: bool) -> list[str]:
    """A last line without newline."""
    return [] if is_ended else ["it is the last line and has no newline at its end"]


def step_fault(case: Case, line: bytes, steps: int) -> list[str]:
    """Why a line is no step and no end of a journal of so many steps."""
    fields = line.split(b" ")
    word = fields[0].decode("ascii", "replace")
    if word not in STEP_WORDS:
        forms = "the steps are: " + "; ".join(STEP_FORMS)
        return [forms if line else "the line is empty; a journal has no empty lines"]
    if is_step(case, line) or line == b"end journal %d" % steps:
        return []
    form = STEP_FORMS[STEP_WORDS.index(word)]
    if word == "end":
        return end_fault(fields, steps)
    if word == "inject":
        return inject_fault(case, fields)
    wanted = len(form.split(" "))
    if len(fields) != wanted:
        return ['it has %s, and "%s" has %d' % (counted(len(fields), "field", "fields"), form, wanted)]
    if word == "deliver":
        return [number_fault(fields[1]) or "the place is above 64 bits"]
    return [name_fault(fields[1])] if name_fault(fields[1]) else unknown_words(case, fields[1])


def end_fault(fields: list[bytes], steps: int) -> list[str]:
    """A last line that isn't right."""
    if fields[:2] != [b"end", b"journal"] or len(fields) != 3:
        return ['the last line of a journal is "end journal %d" here' % steps]
    return number_fault(fields[2]) and [number_fault(fields[2])] or [
        "%d steps come before it, and it says %s; write: end journal %d" % (steps, fields[2].decode(), steps)]


def inject_fault(case: Case, fields: list[bytes]) -> list[str]:
    """An inject step that isn't right."""
    if len(fields) < 2 or fields[1][:1] != b"@":
        return ["after inject comes an external, as in the feed: inject @GROUP NAME cmd HEX"]
    shape = external_shape(fields[1][1:], fields[2:])
    if shape is None:
        return external_field_words(fields[1:])
    causes, (_, name, _, last) = external_causes_of_step(case, shape[1]), shape[1]
    if "name" in causes:
        return unknown_words(case, name)
    found = external_range(case, shape[1]) if "range" in causes else []
    return found or port_fault(case, name, last)


def steps_of(data: bytes) -> tuple[Case, list[tuple], int]:
    """The case and the journal's steps, and the line of the word `journal`."""
    section = section_of(data)
    try:
        return section.case, journal.read_journal(section.case, section.text), section.first
    except journal.JournalFault as fault:
        number = section.first + fault.line - 1
        raise BadInput("the line isn't about this input, whose first bad line is %d (journal):\n  %s" % (
            number, "\n  ".join(journal_line_words(section, fault.line, number)))) from fault


def illegal_words(told: Told, data: bytes) -> list[str]:
    """`illegal step N`."""
    case, steps, first = steps_of(data)
    walk = Walk.begin(case)
    for number, step in enumerate(steps, 1):
        refusal = walk.refusal(step)
        if refusal is not None:
            if number != told.number:
                raise BadInput("the line isn't about this input, whose first illegal step is %d" % number)
            return ["step %d, line %d: %s" % (number, first + number, walk.line(step)), refusal]
        walk.world.take(step)
    raise BadInput("the line isn't about this input, all of whose steps may be taken")


def open_words(_: Told, data: bytes) -> list[str]:
    """`open`, of `rerun` if a journal is there whose steps leave the run open, else of `shake`."""
    case, text = section_of(data).case, section_of(data).text
    try:
        steps = journal.read_journal(case, text)
    except journal.JournalFault:
        return SHAKEN
    if replay.rerun(case, steps)[0] != "open":
        return SHAKEN
    walk = Walk.begin(case)
    for step in steps:
        walk.world.take(step)
    return ["all %d steps may be taken, and they don't come to the end of the run; what is left:" % len(steps),
            *walk.left()]


SHAKEN = ["the steps ended before the run did; shake takes at most as many as --steps says: give it more "
          "(--steps 1000000 is the most)"]


# -- traces


def differs_words(told: Told, data: bytes) -> list[str]:
    """`differs at N`."""
    case, length = casetext.read_case(data)
    right, source = right_trace(data[:length], case)
    place = length + first_difference(data[length:], right)
    if data[length:] == right:
        raise BadInput("the line isn't about this input, whose trace is right (%s)" % source)
    if place != told.number:
        raise BadInput("the line isn't about this input, which differs at %d (%s)" % (place, source))
    line = data.count(b"\n", 0, place) + 1
    return ["byte %d, from 0, is in line %d of the input" % (place, line),
            "the input has %s" % line_words(data, place),
            "the case's trace has %s" % line_words(data[:length] + right, place), *differs_advice(data, place, length)]


def line_words(text: bytes, place: int) -> str:
    """The line of a text around a place, and the column, from 1."""
    if place >= len(text):
        return "ended before it"
    begin = text.rfind(b"\n", 0, place) + 1
    stop = text.find(b"\n", place)
    line = text[begin:] if stop < 0 else text[begin:stop]
    if place == stop:
        return "the end of the line after %s" % quoted(line[-60:])
    column = place - begin
    shown = line if len(line) <= 70 else line[max(0, column - 30):column + 40]
    return "%s at column %d: %s" % (quoted(line[column:column + 1]), column + 1, quoted(shown))


def differs_advice(data: bytes, place: int, length: int) -> list[str]:
    """What a difference most often means."""
    if place == len(data) == length:
        return ["there is no trace after the case; check reads a case and its trace, as run writes them"]
    if data[place:].startswith(b"journal\n"):
        return ["a journal follows the trace; check reads a case and its trace alone, and rerun reads journals"]
    if place == len(data):
        return ["the input ends there: the trace isn't whole"]
    return ["a carriage return is there"] if data[place:place + 1] == b"\r" else []


def right_trace(text: bytes, case: Case) -> tuple[bytes, str]:
    """The trace of a case, and who says so: the built program, or the model if there is none."""
    path = os.environ.get("PROGRAM", os.path.join(TOP, "crates", "defined", "out", "defined"))
    if os.access(path, os.X_OK):
        done = subprocess.run([path, "lockstep"], input=text, capture_output=True, check=False)
        if done.returncode in (0, 4):
            return done.stdout[len(casetext.write_case(case)):], "by the program"
    return trace.trace_text(case)[0], "by the model"


def cut_words(_: Told, data: bytes) -> list[str]:
    """`cut`."""
    return ["this is no refusal: the run has more than 200,000 rows, and the trace is cut there; fewer groups, routers "
            "or commands make it shorter"]


AFTER_CASES: dict[str, Callable[[Told, bytes], list[str]]] = {
    "journal": journal_words, "illegal step": illegal_words, "open": open_words, "differs": differs_words,
    "cut": cut_words}
