"""The lockstep run: its rows in order, by a heap."""

import heapq

from .events import external_event, tick_event
from .node import opening_nodes

ROW_LIMIT = 200_000


def injected(case):
    """The injected events: one tick for each router and group, and the externals."""
    ticks = [tick_event(router, group)
             for group in range(case.groups) for router in range(len(case.routers))]
    return ticks + [external_event(external, place) for place, external in enumerate(case.feed)]


class Run:
    """A lockstep run: the rows handled so far, the nodes, and whether it was cut."""

    def __init__(self, case):
        self.case, self.nodes = case, opening_nodes(case)
        self.ends = [case.ends(router) for router in range(len(case.routers))]
        self.rows, self.cut = [], False
        self.queue = injected(case)
        heapq.heapify(self.queue)

    def push(self, event):
        """One more event waits."""
        heapq.heappush(self.queue, event)

    def go(self, before_group=None):
        """Handles all events, or those before a group, up to the limit of rows."""
        while self.queue and not self.cut:
            if before_group is not None and self.queue[0][0][0] >= before_group:
                return
            self.cut = len(self.rows) == ROW_LIMIT
            if not self.cut:
                self.handle()

    def handle(self):
        """Handles the least event."""
        event = heapq.heappop(self.queue)
        self.rows.append(event)
        router = event[1]
        for message in self.nodes[router].take(self.case, self.ends[router], event):
            self.push(message)
