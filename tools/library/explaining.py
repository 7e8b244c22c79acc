"""A trace in words: lines of rows, of routes that change, and of final states; and a journal's steps."""

from collections.abc import Iterator
from dataclasses import dataclass, field

from model.case import Case
from model.events import DOWN, MSG, UP

from .network import Network
from .reading import Row, Run, State
from .replaying import RouteWatch, Taken, differing_states, taken_rows
from .routes import Route, route_words, routes_of
from .rowwords import kind_of, row_words
from .spelling import counted
from .states import guest_of, guest_words, up_words
from .steps import Walk
from .tool import BadInput, warn


@dataclass
class Filter:
    """Which rows are shown; an empty set lets all through. Groups are from `first` to `last`."""

    routers: set[int] = field(default_factory=set)
    ports: set[int] = field(default_factory=set)
    kinds: set[str] = field(default_factory=set)
    without: set[str] = field(default_factory=set)
    first: int = 0
    last: int | None = None

    def passes(self, network: Network, row: Row) -> bool:
        """Whether a row is shown."""
        if self.routers and row.router not in self.routers or self.ports and row.port not in self.ports:
            return False
        if row.group < self.first or self.last is not None and row.group > self.last:
            return False
        if not self.kinds and not self.without:
            return True
        kind = kind_of(network, row)
        return kind not in self.without and (not self.kinds or kind in self.kinds)

    def shows_state(self, router: int) -> bool:
        """Whether a router's final state is shown."""
        return not self.routers or router in self.routers


@dataclass
class Shown:
    """What is shown of a trace beside the rows that the filter lets through."""

    rows: bool = True
    routes: bool = False
    changes_alone: bool = False
    states: bool = True


def case_words(case: Case) -> str:
    """A case in one line."""
    return "%s of %s, seed %d; %s, %s, %s" % (
        counted(case.groups, "group", "groups"), counted(case.period, "moment", "moments"), case.seed,
        counted(len(case.routers), "router", "routers"), counted(len(case.links), "link", "links"),
        counted(len(case.feed), "external", "externals"))


# -- rows


def trace_words(run: Run, chosen: Filter, shown: Shown) -> Iterator[str]:
    """The lines of a trace."""
    yield case_words(run.case)
    nodes = {}
    if shown.rows:
        yield from row_lines(run, chosen, shown, nodes)
        told = [run.network.names[router] for router in differing_states(run, nodes)]
        if told:
            warn("the rows lead to other final states than the trace has, of %s: what is said of rows passed over "
                 "and of routes may be wrong" % ", ".join(told))
    if run.ending == "cut":
        yield "the run is cut here: it has more than %d rows" % len(run.rows)
    if shown.states:
        for state in run.states:
            if chosen.shows_state(state.router):
                yield from state_lines(run, state)


def row_lines(run: Run, chosen: Filter, shown: Shown, nodes: dict) -> Iterator[str]:
    """The lines of the rows that are shown; `nodes` gets each router's node."""
    layout = Layout(run)
    watch = RouteWatch(run) if shown.routes or shown.changes_alone else None
    both_ends = externals_at_both_ends(run)
    yield layout.heading()
    for taken in taken_rows(run):
        row = taken.row
        nodes[row.router] = taken.node
        changes = watch.changes(taken) if watch else []
        if (changes or not shown.changes_alone) and chosen.passes(run.network, row):
            yield layout.line(row, words_of(run.network, taken, both_ends))
            yield from change_lines(run.network, row.router, changes)


class Layout:
    """The columns of the rows."""

    def __init__(self, run: Run):
        network, last = run.network, run.network.moment(run.case.groups, 0)
        self.run = run
        self.number = max(3, len(str(len(run.rows))))
        self.seconds = max(7, len(network.seconds(last)))
        self.moment = max(6, len(str(last)))
        self.name = max(6, max(map(len, network.names)))

    def heading(self) -> str:
        """The line above the rows."""
        return "%*s  %*s  %*s  %-*s  what comes" % (
            self.number, "row", self.seconds, "seconds", self.moment, "moment", self.name, "router")

    def line(self, row: Row, words: str) -> str:
        """The line of a row."""
        moment = self.run.moment(row)
        return "%*d  %*s  %*d  %-*s  %s" % (
            self.number, row.number, self.seconds, self.run.network.seconds(moment), self.moment, moment,
            self.name, self.run.network.names[row.router], words)


def words_of(network: Network, taken: Taken, both_ends: set) -> str:
    """What a row says, where a message comes from, and whether its router passed it over."""
    row = taken.row
    words = row_words(network, row)
    if row.input == MSG:
        words = "from %s at port %d: %s" % (network.names[row.origin], row.port, words)
    elif row.input in (DOWN, UP):
        words = "%s (%s)" % (words, link_words(network, row, both_ends))
    return words if taken.passed_over is None else "%s [passed over: %s]" % (words, taken.passed_over)


def link_words(network: Network, row: Row, both_ends: set) -> str:
    """Of a port that changes: the link, as `down a b`, and whether its other end changes in the same group."""
    end = network.end(row.router, row.port)
    word = "down" if row.input == DOWN else "up"
    names = sorted((network.names[row.router], network.names[end.router]))
    between = network.ports_to(network.number(names[0]), network.number(names[1]))
    which = ""
    if len(between) > 1:
        port = row.port if names[0] == network.names[row.router] else end.port
        which = " %d" % (between.index(port) + 1)
    is_whole = (row.group, row.input, end.router, end.port) in both_ends
    return "%s %s %s%s%s" % (word, *names, which, "" if is_whole else ", at this end alone")


def externals_at_both_ends(run: Run) -> set:
    """(group, input, router, port) of each port change of the rows."""
    return {(row.group, row.input, row.router, row.port) for row in run.rows if row.input in (DOWN, UP)}


def change_lines(network: Network, router: int, changes: list[tuple[Route | None, Route | None]]) -> Iterator[str]:
    """A line for each route that changed."""
    name = network.names[router]
    for before, after in changes:
        if before is None:
            yield "      routes of %s: new %s" % (name, route_words(network, router, after))
        elif after is None:
            yield "      routes of %s: gone %s" % (name, route_words(network, router, before))
        else:
            was = route_words(network, router, before).split(" ", 1)[1]
            yield "      routes of %s: now %s, was %s" % (name, route_words(network, router, after), was)


# -- final states


def state_lines(run: Run, state: State) -> Iterator[str]:
    """The lines of a router's final state."""
    network, guest = run.network, guest_of(run.network, state)
    yield "final state of %s: sent %s, %s" % (
        network.names[state.router], counted(state.sends, "message", "messages"),
        up_words(network, state.router, state.mask))
    for line in guest_words(network, state.router, guest):
        yield "  " + line
    if network.kinds[state.router] == "ospf":
        for route in routes_of(guest):
            yield "  route " + route_words(network, state.router, route)


# -- journals


def journal_words(run: Run, chosen: Filter) -> Iterator[str]:
    """The lines of a journal's steps, each with what it does; raises `BadInput` at one that may not be taken."""
    walk = Walk.begin(run.case)
    yield case_words(run.case)
    width = max(4, len(str(len(run.steps))))
    yield "%*s  what it does" % (width, "step")
    for number, step in enumerate(run.steps, 1):
        refusal = walk.refusal(step)
        if refusal is not None:
            raise BadInput("step %d of the journal (%s, line %d) may not be taken: %s" % (
                number, walk.line(step), run.journal_line + number, refusal))
        router, group = router_of(walk, step), walk.world.floor
        words = walk.take(step)
        if passes_step(chosen, router, group):
            yield "%*d  %s: %s" % (width, number, walk.line(step), words)
    for line in walk.left():
        yield "left at the end: " + line


def router_of(walk: Walk, step: tuple) -> int | None:
    """The router at which a step does something, or None."""
    if step[0] == "deliver":
        return walk.world.flight[step[1]][1][1]
    if step[0] == "inject":
        return step[1].router
    return step[1] if step[0] in ("handle", "rollback") else None


def passes_step(chosen: Filter, router: int | None, group: int) -> bool:
    """Whether a step is shown: its router, and the group that has begun last."""
    if chosen.routers and router not in chosen.routers:
        return False
    return chosen.first <= group and (chosen.last is None or group <= chosen.last)
