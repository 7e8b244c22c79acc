"""A case in TOML. Its feed may be in words:

    period = 1000
    groups = 200
    seed = 9
    feed = ["@60 down a b", "@120 up a b", "@130 withdraw b 10.0.6.0/24"]

    [[router]]
    name = "a"
    kind = "ospf"

    [[router]]
    name = "b"
    kind = "ospf"

    [[link]]
    a = "a"
    b = "b"
    delay = 20
    cost = 10

    [[prefix]]
    router = "b"
    net = "10.0.6.0/24"
    cost = 1

or in tables, with one of cmd, down and up:

    [[feed]]
    group = 60
    router = "a"
    down = 0
"""

import tomllib
from dataclasses import replace
from typing import Any

from library.commands import read_net
from library.tool import BadInput

from .network import Network, Settings

KEYS = {"": {"period", "groups", "seed", "feed", "router", "link", "prefix"}, "router": {"name", "kind"},
        "link": {"a", "b", "delay", "cost"}, "prefix": {"router", "net", "cost"},
        "feed": {"group", "router", "cmd", "down", "up"}}


def read(text: bytes, settings: Settings) -> Network:
    """The network of a TOML text."""
    try:
        data = tomllib.loads(text.decode())
    except (tomllib.TOMLDecodeError, UnicodeDecodeError) as error:
        raise BadInput(f"this is no TOML: {error}") from error
    numbers = {key: whole(data[key], key) for key in ("period", "groups", "seed") if key in data}
    network = Network(replace(settings, networks=False, **numbers))
    note_others(network, "", "the file", data)
    for name, take in (("router", take_router), ("link", take_link), ("prefix", take_prefix)):
        for place, table in enumerate(listed(data, name), 1):
            take(network, checked(network, name, place, table))
    for place, line in enumerate(listed(data, "feed"), 1):
        network.feed.append(line if isinstance(line, str) else feed_line(checked(network, "feed", place, line)))
    return network


def note_others(network: Network, table: str, what: str, data: dict[str, Any]) -> None:
    """Notes the keys that nothing is known of."""
    for key in data:
        if key not in KEYS[table]:
            network.note(f'{what}: {key} not taken; known are {", ".join(sorted(KEYS[table]))}')


def listed(data: dict[str, Any], name: str) -> list[Any]:
    """The tables of a name, `[[name]]`."""
    found = data.get(name, [])
    if not isinstance(found, list):
        raise BadInput(f"{name} is written as [[{name}]]")
    return found


def checked(network: Network, name: str, place: int, table: Any) -> dict[str, Any]:
    """The place-th table of a name."""
    if not isinstance(table, dict):
        raise BadInput(f"{name} is written as [[{name}]]")
    note_others(network, name, f"{name} {place}", table)
    return table


def whole(value: Any, what: str) -> int:
    """A whole number."""
    if not isinstance(value, int) or isinstance(value, bool) or value < 0:
        raise BadInput(f"{what} = {value!r} isn't a whole number")
    return value


def text_of(value: Any, what: str) -> str:
    """A text."""
    if not isinstance(value, str):
        raise BadInput(f"{what} is missing" if value is None else f"{what} is {value!r}, not a text")
    return value


def known(network: Network, value: Any, what: str) -> str:
    """The name of a router."""
    if text_of(value, what) not in network.nodes:
        raise BadInput(f"{what}: no router {value}")
    return value


def take_router(network: Network, router: dict[str, Any]) -> None:
    """A router."""
    name = text_of(router.get("name"), "a router's name")
    kind = text_of(router.get("kind", network.settings.kind), f"the kind of {name}")
    if kind not in ("flood", "ospf", "rip"):
        raise BadInput(f'router {name}: kind "{kind}" isn\'t flood, ospf or rip')
    if name in network.nodes:
        raise BadInput(f"router {name} is there twice")
    network.add_router(name, name, kind)


def take_link(network: Network, link: dict[str, Any]) -> None:
    """A link."""
    ends = [known(network, link.get(end), f"{end} of a link") for end in ("a", "b")]
    what = f"of link {ends[0]} {ends[1]}"
    delay = whole(link.get("delay", network.settings.delay), f"delay {what}")
    network.add_link(*ends, delay, whole(link.get("cost", network.settings.cost), f"cost {what}"))


def take_prefix(network: Network, prefix: dict[str, Any]) -> None:
    """A network of a router."""
    router = known(network, prefix.get("router"), "router of a prefix")
    address, length = read_net(text_of(prefix.get("net"), f"net of a prefix of {router}"))
    network.add_prefix(router, address, length, whole(prefix.get("cost", 1), f"cost of a prefix of {router}"))


def feed_line(line: dict[str, Any]) -> str:
    """The line of an external that is a table."""
    router = text_of(line.get("router"), "router of a feed")
    group = whole(line.get("group"), f"group of a feed at {router}")
    kind = next((kind for kind in ("cmd", "down", "up") if kind in line), None)
    if kind is None:
        raise BadInput(f"a feed at {router} has none of cmd, down and up")
    last = text_of(line[kind], "cmd of a feed") if kind == "cmd" else whole(line[kind], f"{kind} of a feed")
    return f"@{group} {router} {kind} {last}"
