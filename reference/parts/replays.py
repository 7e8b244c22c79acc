"""`rerun` of journals: random legal walks, edited ones, and texts that are no journal."""

from inputs import walks
from inputs.casetexts import TINY, joined, some_case
from model.numbers import U64_MAX
from model.trace import trace_text

RERUN = [b"rerun"]


def front(rng, text, case):
    """The case text, now and then with a trace section behind it."""
    if rng.random() < 0.2:
        return text + trace_text(case)[0]
    return text + rng.choice(walks.TRACES)


def legal(rng, comparison):
    """A legal walk to its end."""
    text, case = some_case(rng)
    steps = walks.walk(rng, case, 4000)
    comparison.compare(RERUN, front(rng, text, case) + walks.section(case, steps))


def cut_short(rng, comparison):
    """A legal walk that stops early."""
    text, case = some_case(rng)
    steps = walks.walk(rng, case, rng.randint(0, 80), finish=False)
    comparison.compare(RERUN, front(rng, text, case) + walks.section(case, steps))


def one_edit(rng, comparison):
    """A legal walk with one or two edited steps."""
    text, case = some_case(rng)
    steps = walks.walk(rng, case, rng.choice((20, 100, 4000)), finish=rng.random() < 0.5)
    for _ in range(rng.choice((1, 1, 2))):
        steps = walks.edit_steps(rng, case, steps)
    comparison.compare(RERUN, front(rng, text, case) + walks.section(case, steps))


def last_commit(rng, comparison):
    """A whole walk whose last commits are taken out, or put in twice."""
    text, case = some_case(rng)
    steps = walks.walk(rng, case, 4000)
    while steps and steps[-1] == ("commit",) and rng.random() < 0.8:
        steps.pop()
    steps += [("commit",)] * rng.choice((0, 0, 1, 2))
    comparison.compare(RERUN, text + walks.section(case, steps))


def malformed(rng, comparison):
    """A journal with edits of its text."""
    text, case = some_case(rng)
    steps = walks.walk(rng, case, rng.randint(0, 30), finish=False)
    behind = walks.section(case, steps)
    for _ in range(rng.choice((1, 1, 1, 2))):
        behind = walks.edit_section(rng, behind)
    comparison.compare(RERUN, front(rng, text, case) + behind)


def inject_edges(rng, comparison):
    """Inject lines with groups, names, ports and bodies at and past their ends."""
    text, case = some_case(rng)
    steps = walks.walk(rng, case, rng.randint(0, 6), finish=False)
    router = rng.randrange(len(case.routers))
    count = case.port_count(router)
    group = rng.choice((0, 0, case.groups - 1, case.groups, 4096, U64_MAX + 1))
    port = rng.choice((0, max(count - 1, 0), count, 15, 16, 255, 256, U64_MAX + 1))
    name = rng.choice((case.routers[router].name,) * 4 + (b"nobody",))
    what = rng.choice((b"down %d" % port, b"up %d" % port, b"cmd " + b"00" * rng.choice((1, 255, 256))))
    lines = walks.section(case, steps).split(b"\n")[:-2]
    lines.append(b"inject @%d %s %s" % (group, name, what))
    comparison.compare(RERUN, text + joined(lines + [b"end journal %d" % (len(steps) + 1)]))


def wrong_feed(rng, comparison):
    """A feed step that isn't due, put at a random place of a legal walk."""
    text, case = some_case(rng)
    steps = walks.walk(rng, case, 300, finish=rng.random() < 0.5)
    place = rng.randrange(len(steps) + 1)
    feeds = [("beacon",), ("close",)] + [("inject", x) for x in case.feed]
    steps = steps[:place] + [rng.choice(feeds)] + steps[place:]
    comparison.compare(RERUN, text + walks.section(case, steps))


def bad_trace(rng, comparison):
    """What isn't a trace section, or an unfinished one, before a journal."""
    text, case = some_case(rng)
    steps = walks.walk(rng, case, rng.randint(0, 10), finish=False)
    behind = rng.choice((b"", b"", walks.section(case, steps), b"journal\n", b"journal"))
    comparison.compare(RERUN, text + rng.choice(walks.BAD_TRACES) + behind)


def fronts_of_journal(rng, comparison):
    """Every front of a case with a small journal, behind the case text."""
    text, case = some_case(rng, (TINY,))
    steps = walks.walk(rng, case, 5, finish=False)
    whole = text + rng.choice(walks.TRACES) + walks.section(case, steps)
    for place in range(len(text) - 1, len(whole) + 1):
        comparison.compare(RERUN, whole[:place])


COUNT = 800
FIRST = (fronts_of_journal,)
PIECES = (inject_edges, wrong_feed, legal, legal, legal, cut_short, one_edit, one_edit, last_commit,
          malformed, malformed, malformed, bad_trace)
