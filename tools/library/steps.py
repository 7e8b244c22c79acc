"""The steps of a journal in words: what each does, and why one may not be taken.

The world and its steps are those of `model.world` (docs/MODEL.md, "Worlds and steps").
"""

from dataclasses import dataclass

from model.case import Case
from model.events import CMD, MSG, TICK
from model.journal import step_line
from model.world import MINUS, World

from .network import Network
from .rowwords import external_line_words, input_words
from .spelling import counted


def event_words(network: Network, event: tuple) -> str:
    """An event in words, with its router: `b's message from a at port 0 (10.20 s): Hello from 0.0.0.1, ..`."""
    key, router, entry = event
    name, time = network.names[router], network.seconds(network.moment(key[0], key[1]))
    if entry[0] == TICK:
        return "the tick of group %d at %s" % (key[0], name)
    if entry[0] == MSG:
        return "a message of %s to %s at port %d, %s s: %s" % (
            network.names[key[4]], name, entry[1], time, input_words(network, router, entry, key[4]))
    what, words = "command" if entry[0] == CMD else "port change", input_words(network, router, entry)
    return "the %s of %s s at %s: %s" % (what, time, name, words.removeprefix("command: "))


@dataclass
class Walk:
    """A world that takes a journal's steps, and tells of each."""

    case: Case
    network: Network
    world: World

    @classmethod
    def begin(cls, case: Case) -> "Walk":
        """The opening world of a case."""
        return cls(case, Network(case), World(case))

    def line(self, step: tuple) -> str:
        """The step's line in a journal."""
        return step_line(self.case, step).decode()

    def name(self, router: int) -> str:
        """A router's name."""
        return self.network.names[router]

    # -- what a step does

    def take(self, step: tuple) -> str:
        """Takes an enabled step; gives in words what it did."""
        words = {"beacon": self.beacon_words, "inject": self.inject_words, "close": self.close_words,
                 "deliver": self.deliver_words, "handle": self.handle_words, "rollback": self.rollback_words,
                 "commit": self.commit_words}[step[0]](*step[1:])
        before = len(self.world.flight)
        done = [len(seat.done) for seat in self.world.seats]
        self.world.take(step)
        if step[0] in ("handle", "rollback"):
            words += self.put_out_words(step, before, done[step[1]])
        return words

    def put_out_words(self, step: tuple, before: int, done: int) -> str:
        """How many messages or unsends a step has put in flight, and how many events it has taken back."""
        count = len(self.world.flight) - before
        if step[0] == "handle":
            return "; sends " + counted(count, "message", "messages") if count else ""
        back = done - len(self.world.seats[step[1]].done)
        return " %s; unsends %s" % (counted(back, "event", "events"), counted(count, "message", "messages"))

    def beacon_words(self) -> str:
        """A Beacon."""
        return "group %d begins, and its tick comes to each router" % (self.world.floor + 1)

    def inject_words(self, external) -> str:
        """An Inject."""
        return "from outside, %s" % external_line_words(self.network, external.router, external.entry)

    def close_words(self) -> str:
        """A Close."""
        return "nothing more comes from outside"

    def deliver_words(self, place: int) -> str:
        """A Deliver."""
        sign, event = self.world.flight[place]
        return ("arrives to be unsent: " if sign == MINUS else "arrives: ") + event_words(self.network, event)

    def handle_words(self, router: int) -> str:
        """A Handle."""
        return "handles " + event_words(self.network, self.world.seats[router].todo[0])

    def rollback_words(self, router: int) -> str:
        """A RollBack."""
        return "%s, so it takes back" % self.behind_words(router)

    def commit_words(self) -> str:
        """A Commit."""
        group, total = self.world.horizon()[:2]
        return "what is below %s s is final" % self.network.seconds(self.network.moment(group, total))

    # -- why a step may not be taken

    def behind_words(self, router: int) -> str:
        """Why a router is behind, that is, has to take something back."""
        seat = self.world.seats[router]
        unsent = [event for event in seat.voids if event in seat.done]
        if unsent:
            return "%s is behind: it has handled what was unsent, %s" % (
                self.name(router), event_words(self.network, unsent[0]))
        return "%s is behind: before what it handled last (%s) comes %s" % (
            self.name(router), event_words(self.network, seat.done[-1]), event_words(self.network, seat.todo[0]))

    def refusal(self, step: tuple) -> str | None:
        """Why a step isn't enabled, in words; None exactly where `World.enabled` lets it."""
        if self.world.enabled(step):
            return None
        word = step[0]
        if word == "deliver":
            return self.deliver_refusal(step[1])
        if word == "rollback":
            return "%s isn't behind: nothing that it handled is unsent, and nothing earlier waits there" % (
                self.name(step[1]))
        if word == "handle":
            return self.handle_refusal(step[1])
        if self.world.closed:
            return "the feed is closed: after the step close nothing comes from outside, and no group begins"
        return {"inject": self.inject_refusal, "beacon": self.beacon_refusal,
                "close": self.close_refusal}[word](*step[1:])

    def deliver_refusal(self, place: int) -> str:
        """Why nothing can be delivered."""
        count = len(self.world.flight)
        if not count:
            return "nothing is at place %d: no packet is in flight" % place
        return "nothing is at place %d: in flight are %s, at the places 0 to %d" % (
            place, counted(count, "packet", "packets"), count - 1)

    def handle_refusal(self, router: int) -> str:
        """Why a router can't handle anything."""
        if self.world.seats[router].todo:
            return "%s; it must roll back first (rollback %s)" % (self.behind_words(router), self.name(router))
        return "%s has nothing to handle: nothing waits there; what is in flight must be delivered first" % (
            self.name(router))

    def coming_words(self) -> str:
        """The next external of the feed, as its line."""
        line = self.line(("inject", self.world.next_external()))
        return "the next external of the case is " + line.removeprefix("inject ")

    def inject_refusal(self, external) -> str:
        """Why an external can't be accepted now."""
        coming = self.world.next_external()
        if coming is None:
            return "all externals of the case's feed are in already"
        if coming != external:
            return "externals come in the order of the feed, and " + self.coming_words()
        return "its group is %d, and the group that has begun last is %d; %s" % (
            external.group, self.world.floor,
            "take beacon first" if external.group > self.world.floor else "it is past")

    def beacon_refusal(self) -> str:
        """Why no further group can begin."""
        if self.world.floor >= self.case.groups - 1:
            return "the last group, %d, has begun" % self.world.floor
        return "group %d isn't fed yet: %s" % (self.world.floor, self.coming_words())

    def close_refusal(self) -> str:
        """Why the feed can't be closed."""
        if self.world.next_external() is not None:
            return "the feed isn't at its end: " + self.coming_words()
        return "the last group of the case is %d, and the group that has begun last is %d: take beacon first" % (
            self.case.groups - 1, self.world.floor)

    # -- what is left

    def left(self) -> list[str]:
        """What keeps the run from its end, in words, a line each; none exactly where it is at its end."""
        world, lines = self.world, []
        if not world.closed:
            lines.append(self.feed_left())
        if world.flight:
            lines.append("%s in flight; the first is %s" % (
                counted(len(world.flight), "packet is", "packets are"),
                event_words(self.network, world.flight[0][1])))
        for router, seat in enumerate(world.seats):
            if seat.behind():
                lines.append(self.behind_words(router))
            elif seat.todo:
                lines.append("%s has %s to handle; the first is %s" % (
                    self.name(router), counted(len(seat.todo), "event", "events"),
                    event_words(self.network, seat.todo[0])))
        if not lines and world.horizon() > world.boundary:
            lines.append("what was handled isn't all committed: a commit is missing at the end")
        return lines

    def feed_left(self) -> str:
        """What is left of the feed."""
        left = len(self.case.feed) - len(self.world.accepted)
        if left:
            return "the feed is open: %s left; %s" % (counted(left, "external is", "externals are"),
                                                      self.coming_words())
        begun = self.world.floor
        if begun < self.case.groups - 1:
            return "the feed is open: group %d has begun, and the last one is %d" % (begun, self.case.groups - 1)
        return "the feed is open: the step close is missing"
