"""A networkx graph as a network: what GraphML and JSON of networkx share."""

import math
from typing import Any

from library.commands import read_net
from library.tool import BadInput

from .network import Network, Settings

EARTH_RADIUS_KM = 6371.0
FIBRE_KM_A_SECOND = 200_000.0
COST_KEYS = ("cost", "metric", "weight")
PREFIX_KEYS = ("prefixes", "networks", "prefix", "network")
NODE_KEYS = {"label", "name", "kind", "Latitude", "Longitude", *PREFIX_KEYS}
EDGE_KEYS = {"delay", "LinkSpeedRaw", *COST_KEYS}
# Words of the Topology Zoo that say nothing of routing.
PLAIN_KEYS = {"id", "key", "Country", "Internal", "type", "LinkSpeed", "LinkSpeedUnits", "LinkLabel", "LinkType",
              "LinkNote", "hyperedge", "doubted", "x", "y", "graphics", "GeoLocation"}


def network_of_graph(graph: Any, settings: Settings) -> Network:
    """The network of a networkx graph."""
    network = Network(settings)
    for key, data in graph.nodes(data=True):
        take_node(network, key, data)
    for a, b, data in links_of(network, graph):
        what = f"link {network.nodes[a].name} {network.nodes[b].name}"
        note_others(network, what, data, EDGE_KEYS)
        places = (graph.nodes[a], graph.nodes[b])
        network.add_link(a, b, delay_of(network, what, data, places), cost_of(network, what, data))
    return network


def take_node(network: Network, key: Any, data: dict[str, Any]) -> None:
    """A router of a node."""
    label = str(data.get("label") or data.get("name") or key)
    kind = data.get("kind")
    if kind is not None and kind not in ("flood", "ospf", "rip"):
        network.note(f'router "{label}": kind {kind} isn\'t flood, ospf or rip; {network.settings.kind} is taken')
        kind = None
    node = network.add_router(key, label, kind)
    note_others(network, f"router {node.name}", data, NODE_KEYS)
    for name in PREFIX_KEYS:
        listed = data.get(name, [])
        for text in [listed] if isinstance(listed, str) else listed:
            take_prefix(network, key, str(text))


def take_prefix(network: Network, key: Any, text: str) -> None:
    """A prefix `A.B.C.D/LEN` or `A.B.C.D/LEN COST` of a node."""
    fields = text.split()
    try:
        address, length = read_net(fields[0])
        cost = int(fields[1]) if len(fields) > 1 else 1
    except (BadInput, ValueError, IndexError) as fault:
        network.note(f"{network.nodes[key].name}: prefix {text!r}: {fault}")
        return
    network.add_prefix(key, address, length, cost)


def links_of(network: Network, graph: Any) -> list[tuple[Any, Any, dict[str, Any]]]:
    """The links; of a directed graph the two directions between two routers are one link."""
    edges = list(graph.edges(data=True))
    if not graph.is_directed():
        return edges
    found, waiting = [], {}
    for a, b, data in edges:
        back = waiting.get((b, a))
        if back:
            other = back.pop(0)
            if numbers_of(other) != numbers_of(data):
                names = f"{network.nodes[b].name} {network.nodes[a].name}"
                network.note(f"link {names}: other numbers the other way; those of the first direction are taken")
        else:
            waiting.setdefault((a, b), []).append(data)
            found.append((a, b, data))
    return found


def numbers_of(data: dict[str, Any]) -> dict[str, Any]:
    """What is taken of a link."""
    return {key: value for key, value in data.items() if key in EDGE_KEYS}


def note_others(network: Network, what: str, data: dict[str, Any], taken: set[str]) -> None:
    """Notes the attributes that aren't taken."""
    for key, value in data.items():
        if key not in taken and key not in PLAIN_KEYS:
            network.note(f"{what}: {key} {value!r} not taken")


def number_of(network: Network, what: str, key: str, value: Any) -> float | None:
    """A number that is above 0, or None and a note."""
    try:
        number = float(value)
    except (TypeError, ValueError):
        number = math.nan
    if not 0 < number < math.inf:
        network.note(f"{what}: {key} {value!r} isn't a number above 0")
        return None
    return number


def cost_of(network: Network, what: str, data: dict[str, Any]) -> int:
    """The cost: as it is given, by the speed, or that of the settings."""
    for key in COST_KEYS:
        if key in data:
            cost = number_of(network, what, key, data[key])
            if cost is not None:
                return max(1, round(cost))
    if "LinkSpeedRaw" in data:
        speed = number_of(network, what, "LinkSpeedRaw", data["LinkSpeedRaw"])
        if speed is not None:
            return max(1, round(network.settings.reference / speed))
    return network.settings.cost


def delay_of(network: Network, what: str, data: dict[str, Any], places: tuple[dict, dict]) -> int:
    """The delay in moments: as it is given in milliseconds, by the distance, or that of the settings."""
    settings = network.settings
    if "delay" in data:
        delay = number_of(network, what, "delay", data["delay"])
        if delay is not None:
            return max(1, round(delay * settings.period / 1000))
    points = [(data.get("Latitude"), data.get("Longitude")) for data in places]
    if all(isinstance(number, (int, float)) for point in points for number in point):
        return max(1, round(distance_km(*points) / FIBRE_KM_A_SECOND * settings.period))
    return settings.delay


def distance_km(one: tuple[float, float], two: tuple[float, float]) -> float:
    """The great-circle distance of two places in degrees."""
    (a, b), (c, d) = [(math.radians(x), math.radians(y)) for x, y in (one, two)]
    half = math.sin((c - a) / 2) ** 2 + math.cos(a) * math.cos(c) * math.sin((d - b) / 2) ** 2
    return 2 * EARTH_RADIUS_KM * math.asin(min(1.0, math.sqrt(half)))
