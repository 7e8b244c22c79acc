"""A run as the rows of a chart: what comes where and when, who sent it and when, and what is said of it."""

from dataclasses import dataclass, replace

from library.explaining import change_lines
from library.network import Network
from library.packets import FLOODED, KINDS, MALFORMED
from library.reading import Row, Run
from library.replaying import RouteWatch, taken_rows
from library.rowwords import INPUT_KINDS, kind_of, row_words
from library.tool import BadInput
from model.events import MSG

from .rollbacks import Event, Story, story_of

CHART_KINDS = (*INPUT_KINDS.values(), *KINDS)
LABELS = {"acknowledgement": "Ack", FLOODED: "bytes", MALFORMED: "no packet"}
PASSED_SIGN, ROUTES_SIGN, SEPARATOR = "\u00d7", "R", " \u00b7 "
STANDS, PASSED_OVER, AGAIN, SENT_AGAIN, TAKEN_BACK, UNSENT, ROUTES = 0, 1, 2, 4, 8, 16, 32


@dataclass
class Effects:
    """What the rows do, by the model: why a row was passed over, which routes it changes, which row sent a message.

    Rows are told by their events, and messages by (sender, the sender's number).
    """

    passed: dict[Event, str]
    changes: dict[Event, list[str]]
    senders: dict[tuple[int, int], Event]


@dataclass(slots=True)
class Item:
    """A row of the chart.

    `number` is the row's in the trace, from 1, or 0 for what the run took back. `sender` and `sent` are -1 for what
    nobody sent; moments are counted from the beginning of the run. `flags` says what became of it: PASSED_OVER (it did
    nothing), AGAIN and SENT_AGAIN (it was taken back or unsent, and came again), TAKEN_BACK and UNSENT (it was, and
    didn't come again), ROUTES (it changed the router's routes). `cause` is the event whose step sent it, if known.
    """

    number: int
    moment: int
    router: int
    kind: str
    sender: int
    sent: int
    flags: int
    words: str
    event: Event
    cause: Event | None


def items_of(run: Run, with_effects: bool = True) -> list[Item]:
    """The rows of a run; with a journal also what was taken back, in its place."""
    story = Story() if run.steps is None else story_of(run.case, run.steps)
    rows = run.rows if run.ending is not None else rows_of(story)
    if not rows:
        raise BadInput("there is neither a trace nor a journal behind the case; run it first: ./defined run < FILE")
    effects = effects_of(replace(run, rows=rows)) if with_effects else Effects({}, {}, {})
    items = [item_of(run, row, standing_flags(row, story, effects), story, effects) for row in rows]
    standing = {row.event for row in rows}
    lost = [Row(0, 0, event) for event in (story.undone | story.unsent) - standing]
    items += [item_of(run, row, UNSENT if row.event in story.unsent else TAKEN_BACK, story, effects) for row in lost]
    return sorted(items, key=lambda item: item.event)


def effects_of(run: Run) -> Effects:
    """What the rows do, by taking each of them in the model."""
    effects, watch = Effects({}, {}, {}), RouteWatch(run)
    sends = [0] * len(run.case.routers)
    for taken in taken_rows(run):
        event, router = taken.row.event, taken.row.router
        if taken.passed_over is not None:
            effects.passed[event] = taken.passed_over
        changes = watch.changes(taken)
        if changes:
            effects.changes[event] = [line.strip() for line in change_lines(run.network, router, changes)]
        for number in range(sends[router], taken.node.sends):
            effects.senders[router, number] = event
        sends[router] = taken.node.sends
    return effects


def rows_of(story: Story) -> list[Row]:
    """Rows of what a journal has handled, for an input without a trace."""
    return [Row(number, 0, event) for number, event in enumerate(story.handled, 1)]


def standing_flags(row: Row, story: Story, effects: Effects) -> int:
    """What became of a row that stands in the trace."""
    event = row.event
    chosen = ((PASSED_OVER, effects.passed), (ROUTES, effects.changes),
              (AGAIN, story.undone), (SENT_AGAIN, story.unsent))
    return sum(flag for flag, events in chosen if event in events)


def item_of(run: Run, row: Row, flags: int, story: Story, effects: Effects) -> Item:
    """The chart's row of a trace's row."""
    network, moment, event = run.network, run.moment(row), row.event
    sender, sent, cause = -1, -1, None
    end = network.end(row.router, row.port) if row.input == MSG else None
    if end is not None:
        sender, sent = end.router, moment - end.delay
        cause = story.causes.get(event) or effects.senders.get((sender, row.seq))
    words = all_words(network, row, story, effects)
    return Item(row.number, moment, row.router, kind_of(network, row), sender, sent, flags, words, event, cause)


def all_words(network: Network, row: Row, story: Story, effects: Effects) -> str:
    """A row in words, behind why it was passed over and the routes that it changed, and before what a journal says."""
    event, parts = row.event, []
    if event in effects.passed:
        parts.append(f"{PASSED_SIGN} passed over: {effects.passed[event]}")
    if event in effects.changes:
        front = f"routes of {network.names[row.router]}: "
        parts.append(f"{ROUTES_SIGN} {'; '.join(line.removeprefix(front) for line in effects.changes[event])}")
    words = SEPARATOR.join([*parts, row_words(network, row)])
    told = story.words.get(event)
    return words if not told else f"{words} [{'; '.join(told)}]"


def label_of(kind: str) -> str:
    """A kind's short name, as it stands on an arrow."""
    return LABELS.get(kind, kind if kind in INPUT_KINDS.values() else kind.capitalize())


def causes_of(items: list[Item]) -> list[int]:
    """Per row: the place of the row whose step sent it, or -1.

    Where it isn't known it is the sender's last row of that moment.
    """
    places = {item.event: place for place, item in enumerate(items)}
    last = {(item.router, item.moment): place for place, item in enumerate(items)}
    return [places.get(item.cause, -1) if item.cause is not None else last.get((item.sender, item.sent), -1)
            for item in items]


def parting(one: list[Item], two: list[Item]) -> tuple[int, int] | None:
    """The places at which two runs' traces part, ties left out, or None if they don't."""
    left, right = [[place for place, item in enumerate(items) if item.number] for items in (one, two)]
    for a, b in zip(left, right):
        if bare(one[a]) != bare(two[b]):
            return a, b
    if len(left) == len(right):
        return None
    least = min(len(left), len(right))
    return tuple(places[least] if least < len(places) else places[-1] for places in (left, right))


def bare(item: Item) -> tuple:
    """What an item is without its tie."""
    group, total, kind, _, origin, seq = item.event[0]
    return group, total, kind, origin, seq, item.event[1:]
