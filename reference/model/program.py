"""The whole program: words, statuses, standard output and standard error."""

from dataclasses import dataclass

from . import casetext, debugger, journal, live, replay, trace
from .lines import INPUT_LIMIT, Lines
from .numbers import U64_MAX, decimal

MAX_STEPS = 1_000_000
MAX_WORKERS = 16

NUMBERS = {"ok": 0, "differs": 1, "usage": 2, "badcase": 3, "cut": 4,
           "readfault": 5, "writefault": 6, "nomemory": 7, "toobig": 8,
           "illegal": 9, "open": 10}


@dataclass
class Answer:
    """What the program answers."""

    status: str
    detail: str = ""
    out: bytes = b""
    # the case, where behind `out` a journal of it has to follow that `is_journal_of_a_run` takes
    case: object = None

    @property
    def number(self):
        """The exit status."""
        return NUMBERS[self.status]

    @property
    def err(self):
        """The bytes on standard error."""
        texts = {"ok": None, "differs": "differs at %s" % self.detail,
                 "usage": "usage", "badcase": "line %s" % self.detail,
                 "cut": "cut", "readfault": "read fault",
                 "writefault": "write fault", "toobig": "too big",
                 "illegal": "illegal step %s" % self.detail, "open": "open"}
        text = texts[self.status]
        return b"" if text is None else ("defined: %s\n" % text).encode()


def run_of(options):
    """("run" or "live", whether a journal is asked for, None) of the words behind `run`, or None."""
    left, wants_journal, is_live, workers = list(options), False, False, None
    while left:
        option = left.pop(0)
        if option == b"--journal" and not wants_journal:
            wants_journal = True
        elif option == b"--live" and not is_live:
            is_live = True
        elif option == b"--workers" and workers is None and left:
            workers = decimal(left.pop(0))
            if workers is None or not 1 <= workers <= MAX_WORKERS:
                return None
        else:
            return None
    return ("live" if is_live else "run", wants_journal, None)


def plain(words):
    """(command, number, steps) of words that are a command, or None."""
    if words[:1] == [b"run"]:
        return run_of(words[1:])
    if len(words) == 1 and words[0] in (b"lockstep", b"check", b"rerun", b"debug"):
        return (words[0].decode(), None, None)
    if len(words) == 4 and words[0] == b"shake" and words[2] == b"--steps":
        number, steps = decimal(words[1]), decimal(words[3])
        if number is None or number > U64_MAX:
            return None
        if steps is None or not 1 <= steps <= MAX_STEPS:
            return None
        return ("shake", number, steps)
    return None


def bad_line(line, cause):
    """The answer for a bad line."""
    return Answer("badcase", "%d: %s" % (line, cause))


def answer(words, text, beats=(), missing=()):
    """What the program answers to these words and this input.

    `beats` are those of a live feed, and `missing` the commands that the program doesn't have yet.
    """
    asked = plain(words)
    if asked is None or asked[0] in missing:
        return Answer("usage")
    try:
        if asked[0] == "live":
            return run_live(Lines(text), beats, asked[1])
        if asked[0] == "debug":
            return debugged(Lines(text))
        if len(text) > INPUT_LIMIT:
            return Answer("toobig")
        case, length = casetext.read_case(text)
    except casetext.Fault as fault:
        return bad_line(fault.line, fault.cause)
    if asked[0] == "lockstep":
        return written(case)
    if asked[0] == "run":
        whole = written(case)
        whole.case = case if asked[1] else None
        return whole
    if asked[0] == "check":
        return checked(case, text[length:], length)
    if asked[0] == "rerun":
        return rerun(case, text, length)
    return shaken(case, asked[1], asked[2])


def written(case):
    """Recording and trace, at Ok or Cut."""
    section, cut = trace.trace_text(case)
    return Answer("cut" if cut else "ok", out=casetext.write_case(case) + section)


def run_live(lines, beats, wants_journal):
    """The answer of `run --live`; raises the fault of a header."""
    front = lines.gathered(b"feed")
    if front is None:
        return Answer("toobig")
    case, refusal = live.read_header(front), None
    try:
        if live.read_feed(case, lines, beats):
            refusal = Answer("toobig")
    except casetext.Fault as fault:
        refusal = bad_line(fault.line, fault.cause)
    whole = written(case)
    if refusal is not None:
        whole.status, whole.detail = refusal.status, refusal.detail
    whole.case = case if wants_journal else None
    return whole


def debugged(lines):
    """The answer of `debug`; raises the fault of a case."""
    text = lines.gathered(b"end")
    if text is None:
        return Answer("toobig")
    out, is_too_big = debugger.transcript(casetext.read_case(text)[0], lines)
    return Answer("toobig" if is_too_big else "ok", out=out)


def checked(case, rest, start):
    """The answer of `check` for the rest of the input that begins at a place."""
    if not rest.startswith(b"trace\n"):
        return Answer("differs", str(start + first_difference(rest, b"trace\n")))
    section, cut = trace.trace_text(case)
    if rest != section:
        return Answer("differs", str(start + first_difference(rest, section)))
    return Answer("cut" if cut else "ok")


def first_difference(left, right):
    """The first place where a byte differs or one of two unequal texts ends."""
    shorter = min(len(left), len(right))
    if left[:shorter] == right[:shorter]:
        return shorter
    return next(n for n in range(shorter) if left[n] != right[n])


def rerun(case, text, length):
    """The answer of `rerun`; the journal's lines count from the input's start."""
    begin = length + trace.split_trace(text[length:])
    lines = trace.line_count(text[:begin])
    try:
        steps = journal.read_journal(case, text[begin:])
    except journal.JournalFault as fault:
        return bad_line(lines + fault.line, "journal")
    ending, number = replay.rerun(case, steps)
    if ending == "illegal":
        return Answer("illegal", str(number))
    return Answer("open") if ending == "open" else written(case)


def is_journal_of_a_run(case, text):
    """Whether the text is a journal of the case whose steps come to the end of its run, or to its cut."""
    try:
        steps = journal.read_journal(case, text)
    except journal.JournalFault:
        return False
    return replay.rerun(case, steps)[0] not in ("illegal", "open")


def shaken(case, number, most):
    """The answer of `shake`."""
    ending, steps = replay.shake(case, number, most)
    if ending == "open":
        return Answer("open")
    whole = written(case)
    whole.out += journal.write_journal(case, steps)
    return whole
