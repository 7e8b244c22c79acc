"""The topology JSON of an FRR topotest.

`routers` names the routers; each has `links`, by the name of the far router, or `FAR-NAME` when there are several.
A link of the type `loopback` is a network of its router. Interfaces have their OSPF cost in `ospf`.
"""

from dataclasses import replace
from typing import Any

from library.commands import read_net
from library.tool import BadInput

from .jsons import json_of
from .network import Network, Settings

# What says how the test is set up, and what our links don't have: addresses, since they are unnumbered.
SILENT_KEYS = {"ipv4", "ipv6", "type", "ospf", "link", "peer-interface"}
OSPF_SILENT = {"area", "cost", "network"}


def read(text: bytes, settings: Settings) -> Network:
    """The network of a topotest's JSON."""
    data = json_of(text)
    routers = data.get("routers")
    if not isinstance(routers, dict) or not all(isinstance(one, dict) for one in routers.values()):
        raise BadInput('this is no topology of a topotest: it has no "routers" that are objects')
    network = Network(replace(settings, networks=False))
    for name, router in routers.items():
        note_router(network, network.add_router(name, name, kind_of(router)).name, router)
    note_kinds(network, routers)
    for name, router in routers.items():
        for far, link in router.get("links", {}).items():
            take_link(network, routers, name, far, link if isinstance(link, dict) else {})
    for key in data:
        if key not in ("routers", "address_types", "ipv4base", "ipv4mask", "link_ip_start", "lo_prefix",
                       "ipv6base", "ipv6mask"):
            network.note(f"{key}: not taken")
    if "lo_prefix" in data:
        take_loopbacks(network, routers, data["lo_prefix"])
    return network


def kind_of(router: dict[str, Any]) -> str | None:
    """The protocol that a router's part names, or None."""
    links = router.get("links", {}).values()
    if "ospf" in router or any(isinstance(link, dict) and "ospf" in link for link in links):
        return "ospf"
    return "rip" if "rip" in router else None


def note_kinds(network: Network, routers: dict[str, Any]) -> None:
    """Notes the routers that name no protocol if others do, and those that name two."""
    bare = [network.nodes[name].name for name, router in routers.items() if kind_of(router) is None]
    if bare and len(bare) < len(routers):
        network.note(f"{' '.join(bare)}: no protocol is named; {network.settings.kind} is taken")
    for name, router in routers.items():
        if kind_of(router) == "ospf" and "rip" in router:
            network.note(f"{network.nodes[name].name}: RIP beside OSPF: a router has one protocol, and OSPF is taken")


def note_router(network: Network, name: str, router: dict[str, Any]) -> None:
    """Notes what of a router isn't taken."""
    for key, value in router.items():
        if key == "ospf" and isinstance(value, dict):
            for inner in value:
                if inner not in ("neighbors",):
                    network.note(f"{name}: ospf {inner} not taken")
        elif key not in ("links", "rip"):
            network.note(f"{name}: {key} not taken")


def far_router(routers: dict[str, Any], far: str) -> str | None:
    """The router that a link's name leads to: the name itself, or what stands before its first `-`."""
    if far in routers:
        return far
    front = far.split("-")[0]
    return front if front in routers else None


def back_name(name: str, far: str, far_key: str) -> str:
    """What the far router calls the same link."""
    return name + far[len(far_key):]


def take_link(network: Network, routers: dict[str, Any], name: str, far: str, link: dict[str, Any]) -> None:
    """A link, when it comes for the first time, of its end at `name`."""
    here = network.nodes[name].name
    if link.get("type") == "loopback":
        return
    note_interface(network, f"{here}: interface to {far}", link)
    far_key = far_router(routers, far)
    if far_key is None:
        network.note(f"{here}: interface to {far}: no such router; not taken")
        return
    back = routers[far_key].get("links", {}).get(back_name(name, far, far_key))
    if back is None:
        network.note(f"{here}: interface to {far}: {far_key} has no link back; not taken")
        return
    order = list(routers)
    if order.index(name) < order.index(far_key) and has_protocol(network, routers, (name, link), (far_key, back)):
        cost, other = interface_cost(network, here, link), interface_cost(network, far_key, back)
        if cost != other:
            network.note(f"link {here} {network.nodes[far_key].name}: cost {cost} and {other} the other way; "
                         "a link has one cost, the first is taken")
        network.add_link(name, far_key, network.settings.delay, cost)


def has_protocol(network: Network, routers: dict[str, Any], *ends: tuple[str, dict[str, Any]]) -> bool:
    """Whether OSPF runs at both ends of a link, as far as the routers name it; if it doesn't, this is noted."""
    quiet = [network.nodes[name].name for name, link in ends
             if kind_of(routers[name]) == "ospf" and not isinstance(link.get("ospf"), dict)]
    if quiet:
        names = " ".join(network.nodes[name].name for name, _ in ends)
        network.note(f"link {names}: no ospf on it at {' and '.join(quiet)}; not taken")
    return not quiet


def note_interface(network: Network, what: str, link: dict[str, Any]) -> None:
    """Notes what of an interface isn't taken."""
    for key in link:
        if key not in SILENT_KEYS:
            network.note(f"{what}: {key} not taken")
    ospf = link.get("ospf")
    for key, value in (ospf if isinstance(ospf, dict) else {}).items():
        if key not in OSPF_SILENT:
            network.note(f"{what}: ospf {key} {value} not taken")
        if key == "area" and str(value) not in ("0", "0.0.0.0"):
            network.note(f"{what}: area {value}: there is one area, 0")
        if key == "network" and value != "point-to-point":
            network.note(f"{what}: network {value}: links are point-to-point")


def interface_cost(network: Network, name: str, link: dict[str, Any]) -> int:
    """The cost of an interface, or that of the settings."""
    ospf = link.get("ospf")
    cost = ospf.get("cost") if isinstance(ospf, dict) else None
    if cost is None:
        return network.settings.cost
    try:
        return int(cost)
    except (TypeError, ValueError):
        network.note(f"{name}: cost {cost!r} is no number; {network.settings.cost} is taken")
        return network.settings.cost


def take_loopbacks(network: Network, routers: dict[str, Any], prefix: dict[str, Any]) -> None:
    """The loopbacks' networks: as given, or `auto` as topotests number them: front, number in the name, place of
    its letter."""
    for name, router in routers.items():
        for link in router.get("links", {}).values():
            if not isinstance(link, dict) or link.get("type") != "loopback" or "ipv4" not in link:
                continue
            text = link["ipv4"]
            if text == "auto":
                digits = "".join(letter for letter in name if letter.isdigit()) or "0"
                letter = ord(name[0].lower()) - ord("a")
                text = f"{prefix.get('ipv4', '1.0.')}{int(digits)}.{letter}/{prefix.get('v4mask', 32)}"
            try:
                address, length = read_net(text)
            except BadInput as fault:
                network.note(f"{network.nodes[name].name}: loopback {text}: {fault}")
                continue
            network.add_prefix(name, address, length, 1)
