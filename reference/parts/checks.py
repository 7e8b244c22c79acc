"""`check`: equal sections, changed ones, shorter and longer ones; and what may stand behind a case."""

from inputs import edits, walks
from inputs.casetexts import MIXED, TINY, joined, some_case
from model.trace import trace_text

CHECK = [b"check"]
COMMANDS = ([b"run"], [b"lockstep"], CHECK, [b"rerun"], [b"shake", b"5", b"--steps", b"100000"])


def changed_bytes(rng, comparison):
    """A trace with a byte changed, taken out or doubled, or the end cut off, at some places."""
    text, case = some_case(rng)
    section, _ = trace_text(case)
    comparison.compare(CHECK, text + section)
    for _ in range(20):
        place = rng.randrange(len(section))
        other = bytes([section[place] ^ rng.choice((1, 2, 16, 128))])
        front = text + section[:place]
        doubled = section[place:place + 1] + section[place:]
        behind = rng.choice((other + section[place + 1:], section[place + 1:], doubled, b""))
        comparison.compare(CHECK, front + behind)


def longer(rng, comparison):
    """A right section with something behind."""
    text, case = some_case(rng)
    section, _ = trace_text(case)
    steps = walks.walk(rng, case, 5, finish=False)
    more = rng.choice((b"", b"", b"\n", b"x", b"\x00", section, walks.section(case, steps), b"end\n"))
    comparison.compare(CHECK, text + section + more)


def row_changes(rng, comparison):
    """Lines taken out, swapped, doubled or moved, or another number of rows."""
    text, case = some_case(rng)
    lines = trace_text(case)[0].split(b"\n")[:-1]
    if rng.random() < 0.8:
        lines = edits.edit_lines(rng, lines)
    else:
        lines[-1] = b"end trace %d" % rng.randrange(300)
    comparison.compare(CHECK, text + joined(lines))


def behind(rng, comparison):
    """Each command with nothing, a trace, a journal, both or trash behind."""
    text, case = some_case(rng, (TINY, MIXED))
    steps = walks.walk(rng, case, 2000)
    section, _ = trace_text(case)
    written = walks.section(case, steps)
    rests = (b"", section, written, section + written, written + section, b"trash\n", b"\x00",
             b"\n", b"end\n", text, section + section, section + b"x", section[:-1] + written,
             section + written + b"x", section + text, written + written)
    for rest in rests:
        for words in COMMANDS:
            comparison.compare(words, text + rest)


COUNT = 1000
FIRST = ()
PIECES = (changed_bytes, longer, longer, longer, longer, row_changes, row_changes, row_changes, behind)
