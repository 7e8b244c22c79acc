"""GraphML as the Internet Topology Zoo has it."""

import io
from xml.etree.ElementTree import ParseError

from .graphs import network_of_graph
from library.packages import load
from library.tool import BadInput

from .network import Network, Settings


def read(text: bytes, settings: Settings) -> Network:
    """The network of a GraphML text."""
    networkx = load("networkx", "python3-networkx", text)
    try:
        graph = networkx.read_graphml(io.BytesIO(text), force_multigraph=True)
    except (ParseError, networkx.NetworkXError, KeyError, ValueError, StopIteration) as error:
        raise BadInput(f"this is no GraphML: {error}") from error
    return network_of_graph(graph, settings)
