"""A world and its steps (docs/MODEL.md, "Worlds and steps"), as plain lists."""

from bisect import bisect_left, insort

from .events import external_event, tick_event
from .lockstep import ROW_LIMIT
from .node import opening_nodes

PLUS, MINUS = 1, -1


class Seat:
    """One router's part of the world.

    `nodes[n]` is the node after the first n entries of `done`, and `sent[n]`
    what the n-th entry emitted.
    """

    def __init__(self, node):
        self.done, self.todo, self.voids = [], [], []
        self.nodes, self.sent = [node], []

    def cancel(self):
        """Takes out of `todo` and `voids` what stands in both, once each."""
        for event in list(self.voids):
            if event in self.todo:
                self.todo.remove(event)
                self.voids.remove(event)

    def put(self, event):
        """An event goes into `todo`; cancel."""
        insort(self.todo, event)
        if self.voids:
            self.cancel()

    def void(self, event):
        """An event goes into `voids`; cancel."""
        self.voids.append(event)
        self.cancel()

    def behind(self):
        """Whether an earlier event waits or a handled one is unsent."""
        if self.todo and self.done and self.todo[0] < self.done[-1]:
            return True
        return any(event in self.done for event in self.voids)

    def ready(self):
        """Whether the router can handle its least event."""
        return bool(self.todo) and not self.behind()


class World:
    """The opening world of a case's header, and its steps."""

    def __init__(self, case):
        self.case = case
        self.seats = [Seat(node) for node in opening_nodes(case)]
        self.ends = [case.ends(r) for r in range(len(case.routers))]
        self.flight, self.accepted = [], []
        self.floor, self.closed = 0, False
        self.boundary = (0, 0, 0, 0, 0, 0)
        for router, seat in enumerate(self.seats):
            seat.put(tick_event(router, 0))

    # -- what the world tells

    def bound(self):
        """The floor's bound."""
        if self.closed:
            return (self.case.groups, 0, 0, 0, 0, 0)
        return (self.floor, 0, 1, 0, 0, 0)

    def horizon(self):
        """The least key of all that waits, is void or flies, and the bound."""
        least = self.bound()
        for seat in self.seats:
            if seat.todo:
                least = min(least, seat.todo[0][0])
            for event in seat.voids:
                least = min(least, event[0])
        for _, event in self.flight:
            least = min(least, event[0])
        return least

    def quiet(self):
        """Closed, nothing flies or waits, and no router is behind."""
        return self.closed and not self.flight and not any(
            seat.todo or seat.behind() for seat in self.seats)

    def open_end(self):
        """Whether the world isn't quiet or its horizon is above the boundary."""
        return not self.quiet() or self.horizon() > self.boundary

    def is_cut(self):
        """Whether more rows than the limit are below the boundary.

        Each `done` is sorted, so the events below a key are counted by bisection.
        """
        below = (self.boundary,)
        count = sum(bisect_left(seat.done, below) for seat in self.seats)
        return count > ROW_LIMIT

    # -- which step may come

    def enabled(self, step):
        """Whether a step is enabled, as `rerun` asks of a case's feed."""
        word = step[0]
        if word == "deliver":
            return step[1] < len(self.flight)
        if word == "handle":
            return self.seats[step[1]].ready()
        if word == "rollback":
            return self.seats[step[1]].behind()
        if word == "commit":
            return True
        return self.feed_enabled(step)

    def next_external(self):
        """The next external of the case, or None."""
        place = len(self.accepted)
        return self.case.feed[place] if place < len(self.case.feed) else None

    def feed_enabled(self, step):
        """Whether a Beacon, an Inject or a Close may come."""
        if self.closed:
            return False
        coming = self.next_external()
        if step[0] == "inject":
            return coming == step[1] and coming.group == self.floor
        if step[0] == "beacon":
            return self.floor < self.case.groups - 1 and (
                coming is None or coming.group > self.floor)
        return self.floor == self.case.groups - 1 and coming is None

    def feed_step(self):
        """The next step of the feed, as a list of none or one."""
        if self.closed:
            return []
        coming = self.next_external()
        if coming is not None and coming.group == self.floor:
            return [("inject", coming)]
        return [("beacon",) if self.floor < self.case.groups - 1 else ("close",)]

    def listed(self):
        """The list of enabled steps that the schedule draws from."""
        routers = range(len(self.seats))
        steps = self.feed_step()
        steps += [("deliver", place) for place in range(len(self.flight))]
        steps += [("rollback", r) for r in routers if self.seats[r].behind()]
        steps += [("handle", r) for r in routers if self.seats[r].ready()]
        return steps + ([("commit",)] if self.horizon() > self.boundary else [])

    # -- the steps

    def take(self, step):
        """Takes an enabled step."""
        steps = {"beacon": self.do_beacon, "inject": self.do_inject, "close": self.do_close,
                 "deliver": self.do_deliver, "handle": self.do_handle,
                 "rollback": self.do_rollback, "commit": self.do_commit}
        steps[step[0]](*step[1:])

    def do_beacon(self):
        """The floor rises and its ticks go into each `todo`."""
        self.floor += 1
        for router, seat in enumerate(self.seats):
            seat.put(tick_event(router, self.floor))

    def do_inject(self, external):
        """An external is accepted."""
        event = external_event(external, len(self.accepted))
        self.accepted.append(external)
        self.seats[external.router].put(event)

    def do_close(self):
        """The world is closed."""
        self.closed = True

    def do_deliver(self, place):
        """A packet leaves the flight and arrives."""
        sign, event = self.flight.pop(place)
        seat = self.seats[event[1]]
        seat.put(event) if sign == PLUS else seat.void(event)

    def do_handle(self, router):
        """The least waiting event is handled, and what it emits flies."""
        seat = self.seats[router]
        event = seat.todo.pop(0)
        node = seat.nodes[-1].fork()
        emitted = node.take(self.case, self.ends[router], event)
        seat.done.append(event)
        seat.nodes.append(node)
        seat.sent.append(emitted)
        self.flight += [(PLUS, message) for message in emitted]

    def do_rollback(self, router):
        """Entries from the first wrong one on leave `done` and are unsent."""
        seat = self.seats[router]
        place = next(n for n, event in enumerate(seat.done)
                     if event in seat.voids or (seat.todo and event > seat.todo[0]))
        events, sent = seat.done[place:], seat.sent[place:]
        del seat.done[place:], seat.sent[place:], seat.nodes[place + 1:]
        for event in events:
            insort(seat.todo, event)
        self.flight += [(MINUS, message) for one in sent for message in one]
        seat.cancel()

    def do_commit(self):
        """The boundary becomes the horizon."""
        self.boundary = self.horizon()
