"""A case as text of Graphviz: routers with their networks, links with delays and costs, what is down, and a tree."""

from dataclasses import dataclass

from library.commands import net
from model.case import Case, Link

from .standing import Port, Tree, is_up

# Of the palette of Okabe and Ito, which colour-blind people tell apart; a kind has its shape too.
KIND_COLOURS = {b"ospf": "#cfe8f7", b"rip": "#fbe3b4", b"flood": "#e6e6e6"}
KIND_SHAPES = {b"ospf": "ellipse", b"rip": "box", b"flood": "hexagon"}
UP_COLOUR, DOWN_COLOUR, TREE_COLOUR = "#555555", "#d55e00", "#0072b2"
MOST_NETWORKS = 4
FONT = "Helvetica,Arial,sans-serif"


@dataclass(frozen=True)
class View:
    """What is drawn beside the case: the ports that are down, and a tree."""

    title: str
    down: frozenset[Port] = frozenset()
    tree: Tree | None = None


def dot_text(case: Case, view: View) -> str:
    """The text that Graphviz draws."""
    lines = ["graph network {",
             f'  graph [label={quoted(view.title)}, labelloc=t, fontsize=13, fontname="{FONT}", overlap=false,'
             ' splines=true, sep="+14", nodesep=0.5, bgcolor="white"];',
             f'  node [style=filled, color="{UP_COLOUR}", fontname="{FONT}", fontsize=12];',
             f'  edge [fontname="{FONT}", fontsize=9, len=1.7];']
    lines += [node_line(case, number, view) for number in range(len(case.routers))]
    lines += [edge_line(case, number, link, view) for number, link in enumerate(case.links)]
    return "\n".join(lines + ["}"]) + "\n"


def quoted(text: str) -> str:
    """A text of Graphviz between quotes; a newline stays one."""
    return '"' + text.replace("\\", "\\\\").replace('"', '\\"').replace("\n", "\\n") + '"'


def node_line(case: Case, number: int, view: View) -> str:
    """A router: its name, its networks, and its cost in the tree."""
    router = case.routers[number]
    label = [router.name.decode()]
    label += [f"{net(address, length)} cost {cost}" for address, length, cost in router.prefixes[:MOST_NETWORKS]]
    if len(router.prefixes) > MOST_NETWORKS:
        label.append(f"and {len(router.prefixes) - MOST_NETWORKS} networks more")
    more = ""
    if view.tree is not None:
        cost = view.tree.costs.get(number)
        label.append("root" if number == view.tree.root else "not reached" if cost is None else f"at {cost}")
        if number == view.tree.root:
            more = f', color="{TREE_COLOUR}", penwidth=3'
    colour, shape = KIND_COLOURS[router.kind], KIND_SHAPES[router.kind]
    return f'  n{number} [label={quoted(chr(10).join(label))}, fillcolor="{colour}", shape={shape}{more}];'


def edge_line(case: Case, number: int, link: Link, view: View) -> str:
    """A link: its delay and cost; dashed if it is down, and which end is."""
    label, style = f"delay {link.delay}<br/>cost {link.cost}", f'color="{UP_COLOUR}", penwidth=1.2'
    if not is_up(link, view.down):
        ends = [case.routers[router].name.decode() for router, port in ((link.a, link.a_port), (link.b, link.b_port))
                if (router, port) in view.down]
        label = "down" if len(ends) == 2 else f"down at {ends[0]}"
        style = f'color="{DOWN_COLOUR}", fontcolor="{DOWN_COLOUR}", style=dashed, penwidth=1.5'
    elif view.tree is not None and number in view.tree.links:
        style = f'color="{TREE_COLOUR}", penwidth=4'
    return f"  n{link.a} -- n{link.b} [label=<{on_white(label)}>, {style}];"


def on_white(label: str) -> str:
    """A label on a white ground, so that a line below it doesn't cross it."""
    return f'<table border="0" cellborder="0" cellpadding="1"><tr><td bgcolor="white">{label}</td></tr></table>'
