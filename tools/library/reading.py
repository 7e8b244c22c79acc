"""A case, its trace and its journal, read from text into records."""

import re
from dataclasses import dataclass, field

from model import casetext, journal, trace
from model.case import Case
from model.events import CMD, DOWN, MSG, TICK, UP
from model.numbers import decimal, unhex

from .casefaults import bad_line, case_fault_words
from .network import Network
from .spelling import quoted
from .tool import BadInput

CLASSES = {b"t": 0, b"x": 1, b"m": 2}
NUMBER = rb"(0|[1-9][0-9]{0,19})"
INPUT = rb"(tick)|(cmd) ([0-9a-f]+)|(down|up) N|(msg) N ([0-9a-f]+|-)"
ROW = re.compile((rb"N N ([txm]) ([0-9a-f]{16}) N N ([a-z0-9]+) (?:" + INPUT + rb")").replace(b"N", NUMBER))
ROW_SHAPE = "a row is GROUP SUM CLASS TIE ORIGIN SEQ NAME INPUT"
STATE_SHAPE = "a state is: state NAME SENDS MASK IMAGE"


@dataclass(slots=True)
class Row:
    """A row of a trace. `number` is its place among the rows, from 1, and `line` its line in the input, from 1.

    `event` is the event of `model.events`: (key, router, input). Python's order of events is the order of rows.
    """

    number: int
    line: int
    event: tuple

    @property
    def group(self) -> int:
        """The group, counted from 0; one group is one second."""
        return self.event[0][0]

    @property
    def sum(self) -> int:
        """The moments since the group's beginning."""
        return self.event[0][1]

    @property
    def tie(self) -> int:
        """The number that orders messages of one moment."""
        return self.event[0][3]

    @property
    def origin(self) -> int:
        """The router that sent it; of ticks and externals, the router itself."""
        return self.event[0][4]

    @property
    def seq(self) -> int:
        """The sender's number of the message; of an external its place in the feed."""
        return self.event[0][5]

    @property
    def router(self) -> int:
        """The router that handles it."""
        return self.event[1]

    @property
    def input(self) -> int:
        """TICK, CMD, DOWN, UP or MSG of `model.events`."""
        return self.event[2][0]

    @property
    def port(self) -> int | None:
        """The port of a message or a port change, else None."""
        return self.event[2][1] if self.event[2][0] in (DOWN, UP, MSG) else None

    @property
    def body(self) -> bytes:
        """The bytes of a message or a command."""
        return self.event[2][2]


@dataclass(slots=True)
class State:
    """A router's final state: how many messages it sent, the mask of its ports that are up, and its guest's image."""

    line: int
    router: int
    sends: int
    mask: int
    image: bytes


@dataclass
class Run:
    """All that an input has: the case, and if they are there the trace and the journal.

    `ending` is `end`, or `cut` if the run was cut at 200,000 rows, and None if there is no trace. `steps` are the
    journal's, as `model.journal` has them; None if there is no journal. `trace_line` and `journal_line` are the lines
    of the words `trace` and `journal`, from 1.
    """

    case: Case
    network: Network
    case_text: bytes
    trace_text: bytes = b""
    rows: list[Row] = field(default_factory=list)
    states: list[State] = field(default_factory=list)
    ending: str | None = None
    steps: list[tuple] | None = None
    trace_line: int = 0
    journal_line: int = 0

    def moment(self, row: Row) -> int:
        """The row's moment."""
        return self.network.moment(row.group, row.sum)


def read_case(data: bytes) -> tuple[Case, int]:
    """The case at the front of the bytes and the length of its text; raises `BadInput` with what is wrong."""
    try:
        return casetext.read_case(data)
    except casetext.Fault as fault:
        raise BadInput(case_fault(data)) from fault


def case_fault(data: bytes) -> str:
    """What is wrong with a text that begins with no case, in lines."""
    if data.startswith(b"trace\n"):
        return "this begins with a trace; its case must come before it (give the whole output of the program)"
    if data.startswith(b"journal\n"):
        return "this begins with a journal; its case must come before it"
    return "it begins with no case:\n  " + "\n  ".join(case_fault_words(bad_line(data)))


def read_run(data: bytes, need: str | None = None) -> Run:
    """Reads a case, and the trace and the journal after it if they are there; raises `BadInput`.

    `need` is `trace` or `journal` if one of them must be there.
    """
    case, length = read_case(data)
    run = Run(case, Network(case), data[:length])
    section = trace.split_trace(data[length:])
    line = data.count(b"\n", 0, length)
    if section:
        run.trace_text, run.trace_line = data[length:length + section], line + 1
        read_trace(run)
    rest = data[length + section:]
    if rest:
        read_journal(run, rest, line + data.count(b"\n", length, length + section))
    if need == "trace" and not section:
        raise BadInput("there is no trace after the case; run it first: ./defined run < FILE")
    if need == "journal" and run.steps is None:
        raise BadInput("there is no journal after the case; ./defined shake NUMBER --steps M writes one")
    return run


def read_journal(run: Run, text: bytes, lines: int) -> None:
    """Reads the journal; `lines` is how many lines come before it."""
    run.journal_line = lines + 1
    if not text.startswith(b"journal\n"):
        first = text.split(b"\n", 1)[0]
        raise BadInput("line %d: a trace or a journal may be here, but this is %s" % (lines + 1, quoted(first)))
    try:
        run.steps = journal.read_journal(run.case, text)
    except journal.JournalFault as fault:
        found = text.split(b"\n")
        line = found[fault.line - 1] if fault.line <= len(found) else b""
        raise BadInput("line %d is no line of a journal: %s" % (lines + fault.line, quoted(line))) from fault


def read_trace(run: Run) -> None:
    """Reads the trace section into rows, states and how it ends."""
    lines = run.trace_text.split(b"\n")
    if lines[-1] != b"":
        raise BadInput("line %d: the trace is cut short within a line" % (run.trace_line + len(lines) - 1))
    names = {router.name: number for number, router in enumerate(run.case.routers)}
    ports = [run.case.port_count(number) for number in range(len(run.case.routers))]
    for place, line in enumerate(lines[1:-1], 1):
        number = run.trace_line + place
        if line.startswith((b"end trace ", b"cut ")):
            read_ending(run, line, number)
        elif line.startswith(b"state "):
            run.states.append(read_state(line, number, names))
        else:
            run.rows.append(read_row(line, len(run.rows) + 1, number, names, ports))
    if run.ending is None:
        raise BadInput("the trace has no last line (end trace N, or cut N): is the file whole?")


def read_ending(run: Run, line: bytes, number: int) -> None:
    """Reads the last line of a trace, and compares its count with the rows."""
    count = decimal(line.split(b" ")[-1])
    if count != len(run.rows):
        raise BadInput("line %d: %s, but the trace has %d rows" % (number, quoted(line), len(run.rows)))
    run.ending = "cut" if line.startswith(b"cut ") else "end"


def read_row(line: bytes, place: int, number: int, names: dict, ports: list[int]) -> Row:
    """A row of a trace; raises `BadInput` with what is wrong with the line."""
    found = ROW.fullmatch(line)
    if found is None:
        raise BadInput("line %d: %s, but this is %s" % (number, ROW_SHAPE, quoted(line)))
    group, total, kind, tie, origin, seq, name = found.group(1, 2, 3, 4, 5, 6, 7)
    router = names.get(name)
    if router is None or int(origin) >= len(ports):
        raise BadInput("line %d: the case has no such router: %s" % (number, quoted(line)))
    entry = read_input(found, int(group), ports[router])
    if entry is None:
        raise BadInput("line %d: %s has no such input: %s" % (number, name.decode(), quoted(line)))
    key = (int(group), int(total), CLASSES[kind], int(tie, 16), int(origin), int(seq))
    return Row(place, number, (key, router, entry))


def read_input(found: re.Match, group: int, ports: int) -> tuple | None:
    """The input of a row for a router with so many ports, or None if it isn't of the row's class."""
    kind, tick, command, command_body, change, change_port, message, port, body = found.group(3, *range(8, 16))
    if tick:
        return (TICK, group, b"") if kind == b"t" else None
    if command and kind == b"x" and len(command_body) % 2 == 0:
        return CMD, 0, bytes.fromhex(command_body.decode())
    if change and kind == b"x" and int(change_port) < ports:
        return (DOWN if change == b"down" else UP), int(change_port), b""
    if message and kind == b"m" and int(port) < ports and (body == b"-" or len(body) % 2 == 0):
        return MSG, int(port), b"" if body == b"-" else bytes.fromhex(body.decode())
    return None


def read_state(line: bytes, number: int, names: dict) -> State:
    """A state line of a trace; raises `BadInput`."""
    fields = line.split(b" ")
    if len(fields) != 5 or fields[1] not in names:
        raise BadInput("line %d: %s, but this is %s" % (number, STATE_SHAPE, quoted(line)))
    sends, mask, image = decimal(fields[2]), unhex(fields[3]), unhex(fields[4])
    if sends is None or mask is None or len(mask) != 2 or image is None:
        raise BadInput("line %d: %s, but this is %s" % (number, STATE_SHAPE, quoted(line)))
    return State(number, names[fields[1]], sends, int.from_bytes(mask, "big"), image)
