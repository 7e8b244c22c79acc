"""`debug`: sessions over cases of all kinds, among them such in which routes are lost, loop, or messages storm."""

from inputs import edits, walks
from inputs.casetexts import joined
from inputs.sessions import (a_quit, commands, counted_storm, number_lines, ospf_networks, rip_networks, rows_of, small,
                             stormy, watching)
from model.trace import trace_text

DEBUG = [b"debug"]


def behind(rng, case):
    """What stands between a case and the commands: mostly nothing, or a trace section, or what is nearly one."""
    if rng.random() < 0.1:
        return trace_text(case)[0]
    return rng.choice(walks.TRACES) if rng.random() < 0.2 else b""


def mixed(rng, comparison):
    """Random commands over a small case."""
    text, case = small(rng)
    lines = commands(rng, case, rows_of(case))
    comparison.compare(DEBUG, text + behind(rng, case) + joined(lines) + a_quit(rng))


def routed(rng, comparison):
    """Random commands over a network whose links go down and up."""
    text, case = rng.choice((rip_networks, ospf_networks))(rng)
    lines = commands(rng, case, rows_of(case))
    comparison.compare(DEBUG, text + behind(rng, case) + joined(lines) + a_quit(rng))


def watched(rng, comparison):
    """All probes over a network whose links go down and up."""
    text, case = rng.choice((rip_networks, rip_networks, ospf_networks))(rng)
    comparison.compare(DEBUG, text + joined(watching(rng, case)) + a_quit(rng))


def misspelt(rng, comparison):
    """Lines of which half aren't commands."""
    text, case = small(rng)
    lines = commands(rng, case, rows_of(case), odd_rate=0.5) + number_lines(rng)
    comparison.compare(DEBUG, text + joined(lines) + a_quit(rng))


def storms(rng, comparison):
    """All probes, and random commands, over a case of many messages."""
    text, case = stormy(rng)
    lines = watching(rng, case)[:rng.randint(1, 8)] + commands(rng, case, rows_of(case))
    comparison.compare(DEBUG, text + joined(lines) + a_quit(rng))


def edges_of_storms(rng, comparison):
    """1,000 messages in each of two groups, and one more; a probe that sees all of them or not."""
    for messages in (1_000, 1_001):
        text, _ = counted_storm(rng, messages)
        for lines in ([b"watch storm", b"run", b"run", b"run"], [b"step", b"watch storm", b"run", b"run"],
                      [b"step 2100", b"watch storm", b"run", b"run"]):
            comparison.compare(DEBUG, text + joined(lines + [b"unwatch storm", b"where"]))


def wrong_traces(rng, comparison):
    """What isn't a trace section, or an unfinished one, before the commands."""
    text, case = small(rng)
    lines = commands(rng, case, rows_of(case))
    comparison.compare(DEBUG, text + rng.choice(walks.BAD_TRACES) + rng.choice((b"", b"\n")) + joined(lines))


def wrong_cases(rng, comparison):
    """A case text with an edit, and commands behind it."""
    text, case = small(rng)
    lines = text.split(b"\n")[:-1]
    text = joined(rng.choice((edits.edit_lines, edits.edit_field))(rng, lines))
    comparison.compare(DEBUG, text + joined(commands(rng, case, rows_of(case))))


def edited(rng, comparison):
    """A whole input with edits of bytes."""
    text, case = small(rng)
    text += joined(commands(rng, case, rows_of(case)))
    for _ in range(rng.choice((1, 2, 5))):
        text = edits.edit_bytes(rng, text)
    comparison.compare(DEBUG, text)


def fronts(rng, comparison):
    """Every front of one small input."""
    text, case = small(rng)
    text += trace_text(case)[0][:60] + b"\nend trace 1\n"
    begin = max(0, len(text) - 100)
    text += joined([b"watch lost", b"step 2", b"break at 1 0", b"run", b"last", b"unwatch lost", b"quit", b"run"])
    for place in range(begin, len(text) + 1):
        comparison.compare(DEBUG, text[:place])


COUNT = 450
FIRST = (edges_of_storms, fronts)
PIECES = (mixed,) * 8 + (routed,) * 3 + (watched,) * 4 + (misspelt,) * 4 + (storms, wrong_traces, wrong_cases, edited, edited)
