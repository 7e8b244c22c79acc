"""The link state database: a map from an LSA's name to what is kept of it (12 to 14)."""

from dataclasses import dataclass

from .lsa import HEAD_SIZE, MAX_AGE, ROUTER_LSA, Head, Lsa, fletcher_set

FIRST_SEQ, LAST_SEQ = 0x80000001, 0x7FFFFFFF
OPTIONS = 2
MOST_LSAS = 65_534


@dataclass
class Kept:
    """An LSA as it was installed; `sent` is the tick at which it was last sent, or None."""

    lsa: Lsa
    installed: int
    flooded: bool
    sent: int | None = None
    foreign: bool = False

    def fork(self):
        """An equal one that changes by itself."""
        return Kept(self.lsa, self.installed, self.flooded, self.sent, self.foreign)


class Lsdb:
    """The database of a router; `old` are the names of the LSAs that are kept at MaxAge."""

    def __init__(self):
        self.map, self.old = {}, set()

    def fork(self):
        """An equal database that changes by itself."""
        other = Lsdb()
        other.map, other.old = {key: kept.fork() for key, kept in self.map.items()}, set(self.old)
        return other

    def get(self, key):
        """What is kept at a name, or None."""
        return self.map.get(key)

    def install(self, lsa, now, flooded):
        """An instance comes in the place of the one before."""
        self.put(lsa.head.key(), Kept(lsa, now, flooded))

    def put(self, key, kept):
        """Keeps an LSA at a name."""
        self.map[key] = kept
        if kept.lsa.head.age == MAX_AGE:
            self.old.add(key)
        else:
            self.old.discard(key)

    def drop(self, key):
        """Removes an LSA."""
        del self.map[key]
        self.old.discard(key)

    def age(self, key, now):
        """The age that an LSA has now."""
        kept = self.map[key]
        return min(MAX_AGE, kept.lsa.head.age + now - kept.installed)

    def head_now(self, key, now):
        """The header with the age that it has now."""
        return self.map[key].lsa.head._replace(age=self.age(key, now))

    def flush(self, key, now):
        """An LSA is set to MaxAge."""
        kept = self.map[key]
        kept.lsa, kept.installed = kept.lsa.at_age(MAX_AGE), now
        self.old.add(key)

    def age_out(self, now):
        """Sets the LSAs that come to MaxAge now to it; gives their names in order."""
        keys = sorted([key for key, kept in self.map.items()
                       if kept.lsa.head.age < MAX_AGE <= kept.lsa.head.age + now - kept.installed])
        for key in keys:
            self.flush(key, now)
        return keys

    def at_max_age(self):
        """The names of the LSAs that are kept at MaxAge, in order."""
        return sorted(self.old)

    def originate(self, router, body, now):
        """Installs the router's own LSA anew; False where it stands at the last sequence number."""
        old = self.get((ROUTER_LSA, router, router))
        if old is not None and old.lsa.head.seq == LAST_SEQ:
            return False
        seq = FIRST_SEQ if old is None else (old.lsa.head.seq + 1) % (1 << 32)
        head = Head(0, OPTIONS, ROUTER_LSA, router, router, seq, 0, HEAD_SIZE + len(body))
        self.install(fletcher_set(Lsa(head, body)), now, False)
        return True
