"""JSON of networkx: node-link data (with `links`, or `edges` as newer versions write) or adjacency data."""

from .graphs import network_of_graph
from library.packages import load
from library.tool import BadInput

from .jsons import json_of
from .network import Network, Settings


def read(text: bytes, settings: Settings) -> Network:
    """The network of the JSON of a graph."""
    networkx = load("networkx", "python3-networkx", text)
    data = json_of(text)
    try:
        if "adjacency" in data:
            graph = networkx.adjacency_graph(data)
        else:
            links = data["edges"] if "edges" in data else data["links"]
            # Older versions read the links at `links`, newer ones at `edges`.
            graph = networkx.node_link_graph({**data, "links": links, "edges": links})
    except (KeyError, TypeError, AttributeError, networkx.NetworkXError) as error:
        raise BadInput("this is no JSON of networkx: it has neither nodes and links (or edges), nor adjacency: "
                          f"{error}") from error
    return network_of_graph(graph, settings)
