"""The page with a chart: one file that needs no network, with the data, the view's modules and the style within."""

import base64
import html
import json
import os

from library.network import Network
from library.reading import Run

from .timeline import CHART_KINDS, Item, causes_of, label_of, parting

VIEW = os.path.join(os.path.dirname(os.path.dirname(os.path.abspath(__file__))), "chart_view")
MODULES = ("timeline", "colours", "layout", "paint", "overview", "view", "page")


def chart_data(title: str, runs: list[tuple[str, Run, list[Item]]], mark: int | None) -> dict:
    """The data of a chart: routers, kinds, texts, and each run in columns, one value a row."""
    network = runs[0][1].network
    texts: dict[str, int] = {}
    columns = [run_columns(name, items, texts) for name, _, items in runs]
    parted = parting(runs[0][2], runs[1][2]) if len(runs) == 2 else None
    return {"title": title, "period": network.case.period, "digits": network.digits,
            "routers": routers_of(network), "kinds": [{"name": kind, "label": label_of(kind)} for kind in CHART_KINDS],
            "runs": columns, "texts": list(texts), "mark": mark, "parted": parted}


def routers_of(network: Network) -> list[dict]:
    """Names and kinds of the routers."""
    return [{"name": name, "kind": kind} for name, kind in zip(network.names, network.kinds)]


def run_columns(name: str, items: list[Item], texts: dict[str, int]) -> dict:
    """A run in columns; a text that comes again is kept once."""
    return {"name": name, "number": [item.number for item in items], "moment": [item.moment for item in items],
            "router": [item.router for item in items], "kind": [CHART_KINDS.index(item.kind) for item in items],
            "sender": [item.sender for item in items], "sent": [item.sent for item in items],
            "cause": causes_of(items), "flags": [item.flags for item in items],
            "text": [texts.setdefault(item.words, len(texts)) for item in items]}


def read_part(name: str) -> str:
    """A file of the view."""
    with open(os.path.join(VIEW, name), encoding="utf-8") as file:
        return file.read()


def module_url(name: str) -> str:
    """A module of the view as an address that holds its text."""
    return "data:text/javascript;base64," + base64.b64encode(read_part(name + ".js").encode()).decode()


def page_text(data: dict) -> str:
    """The page. Each module of the view is named `chart/NAME` in its imports."""
    names = {"chart/" + name: module_url(name) for name in MODULES}
    parts = {"TITLE": html.escape(data["title"]), "STYLE": read_part("style.css"),
             "IMPORTS": json.dumps({"imports": names}),
             "DATA": json.dumps(data, separators=(",", ":")).replace("</", "<\\/")}
    text = read_part("page.html")
    for name, value in parts.items():
        text = text.replace("{{" + name + "}}", value, 1)
    return text
