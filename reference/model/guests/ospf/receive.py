"""What becomes of an LSA that comes in an Update (13, and docs/OSPF.md)."""

from .lsa import MAX_AGE, ROUTER_LSA, fletcher_ok, links_of, newer
from .lsdb import LAST_SEQ, MOST_LSAS

DISCARDED, ACKED, IMPLIED, SENT_BACK, INSTALLED = "discarded", "acked", "implied", "sent back", "installed"
IS_ACKNOWLEDGED = {DISCARDED: False, ACKED: True, IMPLIED: False, SENT_BACK: False, INSTALLED: True}


def receive(router, port, lsa):
    """Receives an LSA on a port; tells its verdict and, where it is discarded, why."""
    lsa = lsa.at_age(min(lsa.head.age, MAX_AGE))
    kept = router.database.get(lsa.head.key())
    fault = fault_of(lsa)
    if fault is not None:
        return DISCARDED, fault
    if kept is not None:
        return compare(router, port, lsa, kept)
    if len(router.database.map) >= MOST_LSAS:
        return DISCARDED, "the database is full"
    return (ACKED, "") if lsa.head.age == MAX_AGE else install(router, port, lsa)


def fault_of(lsa):
    """Why an LSA can't be taken by itself, or None."""
    if not fletcher_ok(lsa):
        return "wrong LS checksum"
    if lsa.head.kind != ROUTER_LSA:
        return "no router-LSA"
    return "its links don't fill it" if links_of(lsa.body) is None else None


def compare(router, port, lsa, kept):
    """The same for an LSA of which a copy is kept."""
    key = lsa.head.key()
    order = newer(lsa.head, router.database.head_now(key, router.now))
    if order > 0:
        if kept.flooded and kept.installed == router.now:
            return DISCARDED, "the copy was installed in this tick"
        return install(router, port, lsa)
    if order == 0:
        return (ACKED if router.ports[port].list.pop(key, None) is None else IMPLIED), ""
    return send_back(router, port, key, kept)


def send_back(router, port, key, kept):
    """The copy is the newer one: it goes back, but not twice in a tick."""
    if router.database.age(key, router.now) == MAX_AGE and kept.lsa.head.seq == LAST_SEQ:
        return DISCARDED, "older than the copy, which stands at its last sequence number and is being removed"
    if kept.sent == router.now:
        return DISCARDED, "older than the copy, which was sent in this tick"
    router.send_one(port, key)
    return SENT_BACK, ""


def install(router, port, lsa):
    """Installs and floods an LSA, and treats an own one further (13.4)."""
    key = lsa.head.key()
    router.off_all_lists(key)
    router.database.install(lsa, router.now, True)
    router.flood(key, but=port)
    if lsa.head.router == router.id:
        if lsa.head.id == router.id:
            router.database.get(key).foreign = True
        else:
            router.database.flush(key, router.now)
            router.flood(key)
    return INSTALLED, ""
