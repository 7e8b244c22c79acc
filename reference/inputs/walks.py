"""Random legal walks through a world, and edits of journals."""

from model import journal
from model.numbers import U64_MAX
from model.world import World

from . import edits
from .casetexts import joined


def walk(rng, case, most, finish=True):
    """The steps of a random legal run; ends quiet and committed where asked.

    Rollbacks, deliveries of later places and early commits are drawn often.
    """
    world, steps = World(case), []
    weights = {word: rng.choice((1, 1, 3, 8)) for word in
               ("beacon", "inject", "close", "deliver", "rollback", "handle", "commit")}
    while len(steps) < most:
        listed = world.listed()
        if rng.random() < 0.03:
            listed = listed + [("commit",)]
        if not listed:
            break
        step = rng.choices(listed, [weights[s[0]] for s in listed])[0]
        world.take(step)
        steps.append(step)
    while finish and world.open_end():
        step = rng.choice(world.listed())
        world.take(step)
        steps.append(step)
    return steps


def edit_steps(rng, case, steps):
    """One edit of a list of steps, most often an illegal one."""
    steps = list(steps)
    place = rng.randrange(len(steps) + 1)
    what = rng.randrange(6)
    if what == 0 and place < len(steps):
        del steps[place]
    elif what == 1 and place < len(steps):
        steps.insert(place, steps[place])
    elif what == 2:
        steps.insert(place, any_step(rng, case))
    elif what == 3 and place + 1 < len(steps):
        steps[place], steps[place + 1] = steps[place + 1], steps[place]
    elif what == 4 and place < len(steps):
        steps[place] = any_step(rng, case)
    else:
        steps = steps[:place]
    return steps


def any_step(rng, case):
    """A step of any kind, with places past the flight too."""
    router = rng.randrange(len(case.routers))
    choices = [("beacon",), ("close",), ("commit",), ("handle", router), ("rollback", router),
               ("deliver", rng.choice((0, 0, 1, 2, 5, 4294967296, U64_MAX)))]
    if case.feed:
        choices += [("inject", rng.choice(case.feed))] * 2
    return rng.choice(choices)


def edit_section(rng, text):
    """One edit of a journal's text: of its lines, fields or bytes."""
    lines = text.split(b"\n")[:-1]
    what = rng.randrange(8)
    if what == 0:
        return edits.edit_bytes(rng, text)
    if what == 1:
        return edits.edit_bytes(rng, edits.edit_bytes(rng, text))
    if what == 2:
        lines = edits.edit_lines(rng, lines)
    elif what == 3:
        lines = edits.edit_field(rng, lines)
    elif what == 4 and lines:
        lines[-1] = b"end journal " + rng.choice(edits.NUMBERS + [b"%d" % (len(lines) - 1)])
    elif what == 5:
        lines.append(rng.choice((b"", b"x", b"commit", b"end journal 0", b"journal")))
    elif what == 6:
        lines.insert(rng.randint(1, max(1, len(lines) - 1)), rng.choice(ODD_STEPS))
    else:
        return text + rng.choice((b"x", b"\n", b"\x00", b"journal\n", b" ", b"end journal 0\n"))
    return joined(lines)


ODD_STEPS = [b"deliver 18446744073709551615", b"deliver 18446744073709551616", b"deliver -1",
             b"deliver 00", b"deliver", b"deliver 0 0", b"handle", b"handle nobody",
             b"handle a b", b"handle 0", b"rollback nobody", b"rollback", b"beacon 1", b"beacon ",
             b"close 1", b"commit 1", b" commit", b"Commit", b"commit\r", b"stop",
             b"inject @0 nobody cmd 41", b"inject @0 a cmd", b"inject @0 a cmd 4", b"inject 0 a cmd 41",
             b"inject @0 a msg 0 41", b"inject @0 a tick", b"inject @4095 a cmd 41",
             b"inject @4096 a cmd 41", b"inject @99999999999999999999 a cmd 41",
             b"inject @0 a down 16", b"inject @0 a down 15", b"inject @0 a up 0", b"inject",
             b"inject @0 a cmd " + b"00" * 256, b"inject  @0 a cmd 41", b"feed", b"end",
             b"end journal", b"journal", b"trace", b"handle aaaaaaaaaaaaaaaaa"]

TRACES = [b"", b"", b"", b"trace\nend trace 0\n", b"trace\nrubbish\ncut 7\n",
          b"trace\n\n\nend trace \n", b"trace\nend trace 1 2 3\n", b"trace\ncut \n",
          b"trace\nend trace\ncut\nend trace 9\n", b"trace\n\xff\x00\r\nend trace x\n"]
BAD_TRACES = [b"trace", b"trace \n", b"trace\nend trace 5", b"trace\nx", b"trace\nx\n",
              b"trace\n", b" trace\nend trace 0\n", b"Trace\nend trace 0\n", b"end trace 0\n",
              b"cut 200000\n", b"trace\r\nend trace 0\n", b"\ntrace\nend trace 0\n",
              b"trace\n end trace 0\n", b"trace\nend traces 0\n", b"trace\ncut", b"trace\ncut 5",
              b"trace\nend trace 0\ntrace\nend trace 0\n"]


def section(case, steps):
    """The journal text of these steps."""
    return journal.write_journal(case, steps)
