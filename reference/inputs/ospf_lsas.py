"""Crafted LSAs: valid ones, and ones near to a given one."""

from model.guests.ospf.lsa import Head, Lsa, encode_links, fletcher_set
from model.nets import ALL_BITS, mask_of

SEQS = (0x80000000, 0x80000001, 0x80000002, 0xFFFFFFFE, 0xFFFFFFFF, 0, 1, 0x7FFFFFFE, 0x7FFFFFFF)
AGES = (0, 0, 1, 1795, 1799, 1800, 2699, 3585, 3595, 3598, 3599, 3600, 3600, 3601, 65535)
OPTIONS = 2


def some_id(rng, routers):
    """Mostly an id of the network, sometimes another."""
    if rng.random() >= 0.3:
        return rng.randint(1, routers + 1)
    return rng.choice((rng.randint(1, routers), rng.randint(1, routers + 3), 0, ALL_BITS, 0x80000000,
                       rng.getrandbits(32)))


def some_links(rng, routers):
    """Links of a router-LSA, some of kinds that a router doesn't make."""
    links = []
    for _ in range(rng.choice((0, 1, 1, 2, 3))):
        kind = rng.choice((1, 1, 1, 3, 3, 2, 4, 0, 9))
        if kind == 3:
            mask = mask_of(rng.randint(0, 32))
            links.append((3, rng.getrandbits(32), mask, rng.choice((0, 1, 65535))))
        else:
            links.append((kind, some_id(rng, routers), rng.randint(0, 17), rng.choice((0, 1, 9, 65535))))
    return links


def some_body(rng, routers):
    """A router-LSA's body: mostly well formed."""
    links = some_links(rng, routers)
    body = bytearray(encode_links(links))
    if rng.random() < 0.1:
        body[0] = rng.getrandbits(8)
    if rng.random() < 0.1:
        body[1] = rng.getrandbits(8)
    if links and rng.random() < 0.1:                     # a link with one TOS metric
        body[13] = 1
        body[16:16] = rng.randbytes(4)
    return bytes(misformed(rng, body, bool(links)) if rng.random() < 0.12 else body)


def misformed(rng, body, has_links):
    """The body with another length, or another number of links or TOS metrics."""
    fault = rng.randrange(4)
    if fault == 0:
        body[3] = (body[3] + rng.choice((1, 255))) & 255
    elif fault == 1:
        body += rng.randbytes(rng.randint(1, 4))
    elif fault == 2:
        del body[rng.randint(0, len(body) - 1):]
    elif has_links:
        body[13] ^= 1
    return body


def tos_body(rng, count):
    """A well formed body of stub links, each with up to three TOS metrics."""
    out = bytearray(encode_links([]))
    out[2:4] = count.to_bytes(2, "big")
    for _ in range(count):
        link = bytearray(encode_links([(3, rng.getrandbits(32), ALL_BITS, 1)])[4:])
        link[9] = rng.randint(0, 3)
        out += link + rng.randbytes(4 * link[9])
    return bytes(out)


def made(age, link_state_id, router, seq, body, kind=1, options=OPTIONS):
    """The LSA of these fields, with a right LS checksum."""
    return fletcher_set(Lsa(Head(age, options, kind, link_state_id, router, seq, 0, 20 + len(body)), body))


def fresh_lsa(rng, routers, own):
    """Any LSA, often one of the router `own`."""
    router = rng.choice((own, own, some_id(rng, routers), some_id(rng, routers)))
    link_state_id = router if rng.random() < 0.75 else some_id(rng, routers)
    kind = 1 if rng.random() < 0.93 else rng.choice((0, 2, 3, 4, 5, 6, 255))
    options = rng.choice((2, 2, 2, 0, rng.getrandbits(8)))
    return made(rng.choice(AGES), link_state_id, router, rng.choice(SEQS), some_body(rng, routers), kind, options)


def variant(rng, lsa, routers):
    """An instance near to the given one: the same, newer, older, of another age, sum or body."""
    roll = rng.random()
    if roll < 0.15:
        return lsa
    if roll < 0.45:
        return lsa.at_age(near_age(rng, lsa.head.age))
    if roll < 0.55:
        return alias(lsa)
    head, body = lsa.head, lsa.body
    if roll < 0.65:
        body = some_body(rng, routers)
        head = head._replace(length=20 + len(body))
    if roll < 0.75:
        head = head._replace(options=head.options ^ 1 << rng.randint(0, 7))
    else:
        step = rng.choice((-1, 1, 1, 1, 2, -2, 0x7FFFFFFF, 0x80000000))
        near = (head.seq + step) & ALL_BITS
        head = head._replace(seq=rng.choice((near, near, rng.choice(SEQS))))
    if rng.random() < 0.3:
        head = head._replace(age=rng.choice(AGES))
    return fletcher_set(Lsa(head, body))


def near_age(rng, age):
    """An age near the given one, or one at the bounds by which instances are compared."""
    near = rng.choice((age - 1, age + 1, age + 899, age + 900, age + 901, age - 900, age - 901,
                       3600, 3600, 3601, 4501, 65535, rng.choice(AGES)))
    return max(0, min(65535, near))


def alias(lsa):
    """Where a check byte is 255 it becomes 0; the sums stay 0 modulo 255."""
    high, low = divmod(lsa.head.sum, 256)
    return Lsa(lsa.head._replace(sum=high % 255 * 256 + low % 255), lsa.body)


def bad_sum(rng, lsa):
    """The LSA with another LS checksum, mostly a wrong one."""
    old = lsa.head.sum
    other = rng.choice((old ^ 1, old ^ 0x100, 0, (old + 1) & 0xFFFF, old * 256 % 65535, rng.getrandbits(16)))
    return Lsa(lsa.head._replace(sum=other), lsa.body)
