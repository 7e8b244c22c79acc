"""The probes: watchers that are shown each row and the show of its router after it, and say yes at some rows."""

from .events import MSG

STORM, MOST_HOPS = 1_000, 64
UNREACHABLE = b"16"


def routes_shown(kind, show):
    """The words of WHERE by the prefix of each route in the show of a router of this kind."""
    found = {}
    for line in show:
        if line.startswith(b"route "):
            _, prefix, cost, _, *where = line.split(b" ")
            if not (kind == b"rip" and cost == UNREACHABLE):
                found[prefix] = where
    return found


class Probe:
    """What every probe has: how many rows it was shown, and at how many of them it said yes."""

    name, reads_shows = b"", False

    def __init__(self, case):
        self.case, self.shown, self.yes = case, 0, 0

    def see(self, row, show):
        """Is shown a row and the show after it; tells whether it says yes."""
        says_yes = self.judge(row, show)
        self.shown += 1
        self.yes += says_yes
        return says_yes

    def judge(self, row, show):
        """Whether it says yes."""
        raise NotImplementedError

    def report(self):
        """Its line."""
        return b"report %s shown %d yes %d" % (self.name, self.shown, self.yes)


class Storm(Probe):
    """More than 1,000 messages in one group."""

    name = b"storm"

    def __init__(self, case):
        super().__init__(case)
        self.messages = {}

    def judge(self, row, show):
        """Counts the messages of each group."""
        (group, *_), _, (kind, _, _) = row
        if kind != MSG:
            return False
        self.messages[group] = self.messages.get(group, 0) + 1
        return self.messages[group] > STORM


class RouteProbe(Probe):
    """A probe that keeps the routes of each router as they were last shown to it."""

    reads_shows = True

    def __init__(self, case):
        super().__init__(case)
        self.routes = {}

    def judge(self, row, show):
        """Keeps the routes of the row's router."""
        router = row[1]
        before, now = self.routes.get(router, {}), routes_shown(self.case.routers[router].kind, show)
        self.routes[router] = now
        return self.judge_routes(router, before, now)

    def judge_routes(self, router, before, now):
        """Whether it says yes at a row of a router that had these routes before and has those now."""
        raise NotImplementedError


class Lost(RouteProbe):
    """A router has no route any more to a prefix to which it had one."""

    name = b"lost"

    def judge_routes(self, router, before, now):
        """Compares the prefixes."""
        return any(prefix not in now for prefix in before)


class Loop(RouteProbe):
    """The least ports of the routes to a prefix lead from a router back to it."""

    name = b"loop"

    def judge_routes(self, router, before, now):
        """Follows each prefix."""
        return any(self.comes_back(router, prefix) for prefix in now)

    def comes_back(self, router, prefix):
        """Whether the way from a router comes back to it after 1 to 64 hops."""
        at = router
        for _ in range(MOST_HOPS):
            at = self.next_hop(at, prefix)
            if at is None or at == router:
                return at == router
        return False

    def next_hop(self, router, prefix):
        """The router behind the least port of a router's route, or None where the way ends."""
        where = self.routes.get(router, {}).get(prefix, [])
        ports = [int(word) for word in where if word.isdigit()]
        ends = self.case.ends(router)
        if where[:1] == [b"own"] or not ports or ports[0] >= len(ends):
            return None
        return ends[ports[0]][0]


PROBES = (Loop, Storm, Lost)
