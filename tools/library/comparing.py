"""Two traces side by side, without their ties.

Ties decide the order of messages of one moment, and another seed gives other ties, so two runs part only where a row
differs in anything else. From there on the rows of each moment are side by side.
"""

import difflib
from collections.abc import Iterator
from dataclasses import dataclass
from itertools import groupby

from model.events import MSG

from .reading import Row, Run
from .routes import holdings_words
from .rowwords import row_words
from .spelling import counted
from .states import guest_of

SAME, CHANGED, LEFT, RIGHT = " ", "|", "<", ">"
LEAST_WIDTH = 40


@dataclass
class Side:
    """A run, what it is called, its rows as they are compared, and these rows without their ties."""

    name: str
    run: Run
    rows: list[Row]
    bare: list[tuple]

    @classmethod
    def of(cls, name: str, run: Run, is_any_order: bool = False) -> "Side":
        """The side of a run; if any order of the rows of a moment is good, they are put in that which seed 0 gives."""
        names = run.network.names
        found = [(bare_row(names, row), row) for row in run.rows]
        if is_any_order:
            found.sort(key=lambda pair: pair[0])
        return cls(name, run, [row for _, row in found], [bare for bare, _ in found])

    def words(self, row: Row) -> str:
        """A row in a line."""
        network = self.run.network
        sender = "%s: " % network.names[row.origin] if row.input == MSG else ""
        time, name = network.seconds(self.run.moment(row)), network.names[row.router]
        return "%d  %s  %s  %s%s" % (row.number, time, name, sender, row_words(network, row))


def bare_row(names: list[str], row: Row) -> tuple:
    """A row without its tie, and with names in place of numbers."""
    group, total, kind, _, origin, seq = row.event[0]
    return group, total, kind, names[origin], seq, names[row.router], row.event[2]


def parting(one: Side, other: Side) -> int | None:
    """The place of the first row that differs, from 0; None if the rows are the same."""
    for place, (left, right) in enumerate(zip(one.bare, other.bare)):
        if left != right:
            return place
    return None if len(one.bare) == len(other.bare) else min(len(one.bare), len(other.bare))


@dataclass
class Layout:
    """How many rows are shown before the first that differs, how many lines from there on, and how wide a line is."""

    before: int
    lines: int
    width: int

    def line(self, left: str, mark: str, right: str) -> str:
        """Two texts side by side."""
        half = max(LEAST_WIDTH, self.width - 3) // 2
        return "%-*s %s %s" % (half, clipped(left, half), mark, clipped(right, half))


def clipped(text: str, most: int) -> str:
    """A text that is no longer than so many letters."""
    return text if len(text) <= most else text[:most - 2] + ".."


def comparison_words(one: Side, other: Side, layout: Layout) -> Iterator[str]:
    """The lines of a comparison."""
    place = parting(one, other)
    if place is None:
        yield "the %s are the same, without ties" % counted(len(one.bare), "row", "rows")
    else:
        yield "%s of %s and %s of %s; the first %d are the same without ties, and row %d differs" % (
            counted(len(one.bare), "row", "rows"), one.name, counted(len(other.bare), "row", "rows"), other.name,
            place, place + 1)
        yield from side_by_side(one, other, place, layout)
    yield from ends(one, other)


def side_by_side(one: Side, other: Side, place: int, layout: Layout) -> Iterator[str]:
    """The rows before the first that differs, and those from it on."""
    yield layout.line(one.name, SAME, other.name).rstrip()
    for number in range(max(0, place - layout.before), place):
        yield layout.line(one.words(one.rows[number]), SAME, other.words(other.rows[number])).rstrip()
    count = 0
    for left, mark, right in pairs(one, other, place):
        if count == layout.lines:
            yield "(more rows follow; --lines N shows N)"
            return
        count += 1
        yield layout.line(one.words(left) if left else "", mark, other.words(right) if right else "").rstrip()


def pairs(one: Side, other: Side, place: int) -> Iterator[tuple[Row | None, str, Row | None]]:
    """The rows from a place on, each moment's beside one another."""
    left, right = moments(one, place), moments(other, place)
    for moment in sorted({*left, *right}):
        yield from moment_pairs(one, other, left.get(moment, []), right.get(moment, []))


def moments(side: Side, place: int) -> dict[tuple[int, int], list[int]]:
    """The places of a side's rows from one on, by group and sum."""
    return {moment: list(places) for moment, places in
            groupby(range(place, len(side.bare)), key=lambda number: side.bare[number][:2])}


def moment_pairs(one: Side, other: Side, left: list[int], right: list[int]) -> Iterator:
    """The rows of one moment beside one another, equal rows in one line as far as their order lets."""
    matcher = difflib.SequenceMatcher(None, [one.bare[n] for n in left], [other.bare[n] for n in right], False)
    for kind, a, b, c, d in matcher.get_opcodes():
        for step in range(max(b - a, d - c)):
            here = one.rows[left[a + step]] if a + step < b else None
            there = other.rows[right[c + step]] if c + step < d else None
            mark = SAME if kind == "equal" else LEFT if there is None else RIGHT if here is None else CHANGED
            yield here, mark, there


# -- what the routers end with


def holdings(side: Side) -> dict[str, list[str]]:
    """What each router ends with, by its name."""
    network = side.run.network
    return {network.names[state.router]: holdings_words(network, state.router, guest_of(network, state))
            for state in side.run.states}


def ends(one: Side, other: Side) -> Iterator[str]:
    """The routers that end with other routes or bodies, and which they are."""
    if "cut" in (one.run.ending, other.run.ending):
        yield "a run that is cut has no final states"
        return
    left, right = holdings(one), holdings(other)
    differing = [name for name in {**left, **right} if left.get(name) != right.get(name)]
    if not differing:
        yield "the routers end with the same routes and bodies"
    for name in differing:
        yield "%s ends otherwise:" % name
        for mark, words in ((LEFT, left), (RIGHT, right)):
            mine, others = words.get(name, []), (right if mark == LEFT else left).get(name, [])
            yield from ("  %s %s" % (mark, line) for line in mine if line not in others)
