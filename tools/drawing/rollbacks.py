"""What a journal's steps take back: events that were handled too early, and the messages that were unsent for it."""

from dataclasses import dataclass, field

from library.steps import Walk
from library.tool import BadInput
from model.case import Case
from model.world import World

Event = tuple


@dataclass
class Story:
    """What a journal says of events: words for each, those that were taken back, and those that were unsent.

    `handled` has the events that stand handled at the end, in order. Steps are counted from 1.
    """

    words: dict[Event, list[str]] = field(default_factory=dict)
    undone: set[Event] = field(default_factory=set)
    unsent: set[Event] = field(default_factory=set)
    causes: dict[Event, Event] = field(default_factory=dict)
    handled: list[Event] = field(default_factory=list)

    def tell(self, event: Event, words: str) -> None:
        """Words more of an event."""
        self.words.setdefault(event, []).append(words)


def story_of(case: Case, steps: list[tuple]) -> Story:
    """Takes the steps one by one; raises `BadInput` at one that may not be taken."""
    walk, story = Walk.begin(case), Story()
    world = walk.world
    for number, step in enumerate(steps, 1):
        if not world.enabled(step):
            raise BadInput(f"step {number} of the journal, {walk.line(step)}, may not be taken: {walk.refusal(step)}")
        if step[0] == "rollback":
            note_rollback(world, story, step[1], number)
        else:
            world.take(step)
        if step[0] == "handle":
            note_handle(world, story, step[1], number)
    story.handled = sorted(event for seat in world.seats for event in seat.done)
    return story


def note_handle(world: World, story: Story, router: int, number: int) -> None:
    """An event was handled, and what it emitted was sent."""
    seat = world.seats[router]
    event = seat.done[-1]
    story.tell(event, f"handled at step {number}")
    for message in seat.sent[-1]:
        story.tell(message, f"sent at step {number}")
        story.causes[message] = event


def note_rollback(world: World, story: Story, router: int, number: int) -> None:
    """Takes a rollback, and notes what leaves the router's list and what is unsent."""
    seat = world.seats[router]
    before, sent = list(seat.done), list(seat.sent)
    world.take(("rollback", router))
    name = world.case.routers[router].name.decode()
    for event, messages in zip(before[len(seat.done):], sent[len(seat.done):]):
        story.undone.add(event)
        story.tell(event, f"taken back at step {number}")
        for message in messages:
            story.unsent.add(message)
            story.tell(message, f"unsent at step {number}, as {name} took back what had sent it")
