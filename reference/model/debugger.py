"""A session of the debugger, and its transcript."""

from .commands import matches, read_command
from .lines import FULL, REST, TOO_BIG
from .lockstep import ROW_LIMIT, Run
from .probes import PROBES
from .trace import row_line

LAST_ROWS = 16
NOT_A_COMMAND = b"?\n"


class Session:
    """A run at a place, breaks, the probes that are attached in order, and those that can be."""

    def __init__(self, case):
        self.case, self.run = case, Run(case)
        self.breaks, self.attached, self.idle = [], [], list(PROBES)

    def command(self, line):
        """What a line writes; None where it ends the session."""
        command = read_command(self.case, line)
        if command is None:
            return NOT_A_COMMAND
        word, *values = command
        return None if word == "quit" else getattr(self, "do_" + word)(*values)

    # -- commands that handle rows

    def do_step(self, count):
        """Rows one by one."""
        rows, stop = self.go(most=count)
        return self.lines_of(rows) + stop

    def do_run(self):
        """To the end."""
        rows, stop = self.go()
        return self.lines_of(rows[-1:]) + stop

    def do_until(self, group):
        """To the first row of a group or of one behind it."""
        rows, stop = self.go(group=group)
        return self.lines_of(rows[-1:]) + stop

    def go(self, most=None, group=None):
        """Handles rows until a reason to stop; gives them and the stop line."""
        begin, reason = len(self.run.rows), None
        while reason is None:
            queue, place = self.run.queue, len(self.run.rows)
            if group is not None and queue and queue[0][0][0] >= group:
                reason = b"group"
            elif place - begin == most:
                reason = b"step"
            elif not queue:
                reason = b"end"
            elif place == ROW_LIMIT:
                reason = b"cut"
            else:
                reason = self.handle()
        rows = self.run.rows[begin:]
        return rows, b"at %d %s\n" % (len(self.run.rows), reason)

    def handle(self):
        """Handles a row and shows it to the probes; gives the break or probe that stops there, or None."""
        self.run.handle()
        row = self.run.rows[-1]
        is_read = any(probe.reads_shows for probe in self.attached)
        show = self.run.nodes[row[1]].guest.show() if is_read else []
        said_yes = [probe.name for probe in self.attached if probe.see(row, show)]
        for place, one in enumerate(self.breaks):
            if matches(one, row):
                return b"break %d" % place
        return b"probe " + said_yes[0] if said_yes else None

    def lines_of(self, rows):
        """The lines of rows."""
        return b"".join(row_line(self.case, row) for row in rows)

    # -- breaks and probes

    def do_break(self, one):
        """One more break."""
        self.breaks.append(one)
        return b"break %d\n" % (len(self.breaks) - 1)

    def do_watch(self, name):
        """Attaches a probe."""
        found = next((kind for kind in self.idle if kind.name == name), None)
        if found is None:
            return NOT_A_COMMAND
        self.idle.remove(found)
        self.attached.append(found(self.case))
        return b"watch %s\n" % name

    def do_unwatch(self, name):
        """Drops a probe."""
        found = next((probe for probe in self.attached if probe.name == name), None)
        if found is None:
            return NOT_A_COMMAND
        self.attached.remove(found)
        return found.report() + b"\n"

    # -- what is looked at

    def do_show(self, router):
        """A node and what its guest shows."""
        node = self.run.nodes[router]
        head = b"node %s %d %04x" % (self.case.routers[router].name, node.sends, node.mask)
        return b"".join(line + b"\n" for line in [head, *node.guest.show()])

    def do_queue(self, router):
        """The messages that are on their way to a router, in order."""
        waiting = sorted(event for event in self.run.queue if event[1] == router and event[0][2] == 2)
        return self.lines_of(waiting) + b"waiting %d\n" % len(waiting)

    def do_where(self):
        """The place."""
        return b"at %d\n" % len(self.run.rows)

    def do_last(self):
        """The last rows."""
        return self.lines_of(self.run.rows[-LAST_ROWS:])


def skip_trace(lines):
    """Skips a trace section and gives what comes after it: a kind and a line."""
    kind, line = lines.next()
    if (kind, line) != (FULL, b"trace"):
        return kind, line
    while kind == FULL and not line.startswith((b"end trace ", b"cut ")):
        kind, line = lines.next()
    return lines.next() if kind != TOO_BIG else (kind, line)


def transcript(case, lines):
    """What the session of the lines behind a case writes, and whether they were too big."""
    session, out = Session(case), []
    kind, line = skip_trace(lines)
    while kind in (FULL, REST):
        told = session.command(line)
        if told is None:
            break
        out.append(told)
        kind, line = lines.next()
    return b"".join(out), kind == TOO_BIG
