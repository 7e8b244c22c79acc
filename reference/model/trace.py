"""Trace text of the lockstep run, and the split of a trace section."""

from .events import input_text
from .lockstep import Run

CLASSES = (b"t", b"x", b"m")


def row_line(case, row):
    """The line of a row."""
    (group, total, kind, tie, origin, seq), router, entry = row
    return b"%d %d %s %016x %d %d %s %s\n" % (
        group, total, CLASSES[kind], tie, origin, seq,
        case.routers[router].name, input_text(entry))


def state_line(case, router, node):
    """The line of a router's state."""
    return b"state %s %d %04x %s\n" % (
        case.routers[router].name, node.sends, node.mask, node.guest.image().hex().encode())


def trace_text(case):
    """The trace text of a case and whether its run is cut."""
    run = Run(case)
    run.go()
    return run_text(run), run.cut


def run_text(run):
    """The trace text of a run that went to its end or its cut."""
    text = [b"trace\n"] + [row_line(run.case, row) for row in run.rows]
    if run.cut:
        text.append(b"cut %d\n" % len(run.rows))
    else:
        text += [state_line(run.case, router, node) for router, node in enumerate(run.nodes)]
        text.append(b"end trace %d\n" % len(run.rows))
    return b"".join(text)


def split_trace(rest):
    """The length of the trace section at the front of the bytes, or 0."""
    if not rest.startswith(b"trace\n"):
        return 0
    place = 0
    while place < len(rest):
        stop = rest.find(b"\n", place)
        stop = len(rest) if stop < 0 else stop + 1
        if rest.startswith((b"end trace ", b"cut "), place):
            return stop
        place = stop
    return len(rest)


def line_count(section):
    """How many lines a section has; a last piece without newline counts."""
    return section.count(b"\n") + (1 if section and section[-1:] != b"\n" else 0)
