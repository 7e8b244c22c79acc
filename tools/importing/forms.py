"""The forms that can be read, and how one is known by its look."""

import os

from library import tool
from library.tool import BadInput

from . import case_words, frr, graphml, node_link, toml_case, topotest
from .jsons import json_of
from .network import Network, Settings

FORMS = {"graphml": graphml.read, "networkx": node_link.read, "topotest": topotest.read, "frr": frr.read,
         "toml": toml_case.read, "case": case_words.read}


def read_network(paths: list[str], form: str | None, settings: Settings) -> Network:
    """The network of the input; without a form it is known by its look."""
    if form == "frr" or (form is None and paths and is_frr(paths)):
        return frr.read(paths, settings)
    if len(paths) > 1:
        raise BadInput("several files are read as configurations of FRR alone: *.conf, or --from frr")
    text = tool.read(paths[0] if paths else None)
    return FORMS[form or look(text)](text, settings)


def is_frr(paths: list[str]) -> bool:
    """Whether the paths are configurations: folders, or files that end with .conf."""
    return all(os.path.isdir(path) or path.endswith(".conf") for path in paths)


def look(text: bytes) -> str:
    """The form by the look of a text."""
    front = text.lstrip()[:200]
    if front.startswith(b"<"):
        return "graphml"
    if front.startswith(b"{"):
        return "topotest" if "routers" in json_of(text) else "networkx"
    if front.startswith(b"defined "):
        return "case"
    if b"=" in text:
        return "toml"
    raise BadInput("this looks like none of " + ", ".join(FORMS) + "; --from says which it is")
