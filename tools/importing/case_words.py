"""A case text whose feed may be in words: the part before `feed` is as the program reads it."""

from dataclasses import replace

from library.tool import BadInput
from library.reading import read_case

from .network import Network, Settings


def read(text: bytes, settings: Settings) -> Network:
    """The network of a case text."""
    front, word, feed = text.partition(b"\nfeed\n")
    case, _ = read_case(front + b"\nfeed\nend\n" if word else text)
    settings = replace(settings, period=case.period, groups=case.groups, seed=case.seed, networks=False)
    network = Network(settings)
    for number, router in enumerate(case.routers):
        name = router.name.decode()
        network.add_router(str(number), name, router.kind.decode()).prefixes += router.prefixes
    for link in case.links:
        network.add_link(str(link.a), str(link.b), link.delay, link.cost)
    lines, word, _ = ("\n" + feed.decode(errors="replace")).partition("\nend\n")
    if not word:
        raise BadInput("the case has no line end")
    network.feed = [line for line in lines.split("\n") if line]
    return network
