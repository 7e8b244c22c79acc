"""Configurations of FRR routers: `frr.conf`, or `zebra.conf`, `ospfd.conf` and `ripd.conf`, a folder for each router.

Two interfaces in one subnet on which two routers run one protocol are a link. Another subnet is a network of each
router that tells of it, and so is a loopback's address. `network` lines and `ip ospf area` say where a protocol runs,
and these and `redistribute connected` what it tells of. A router that runs neither OSPF nor RIP, as a host, isn't taken.
"""

import ipaddress
import os
import re
from dataclasses import dataclass, field, replace
from itertools import combinations

from library.tool import BadInput, reason

from .network import Network, Settings

FRR_COST = 10
LOOPBACKS = ("lo", "lo0")
HOST_LENGTH = 32
# Old configurations name their daemon in place of the router.
DAEMONS = ("zebra", "ospfd", "ripd", "bgpd", "staticd", "frr", "Router")
OTHER = "other"
Interface4 = ipaddress.IPv4Interface
Network4 = ipaddress.IPv4Network

# Lines that say nothing of the network.
SILENT = re.compile(r"(!|#|Building configuration|Current configuration|frr |hostname |username |"
                    r"log |log-adjacency-changes|service |line |exec-timeout |exit|end$|password |enable password |"
                    r"debug |agentx|ip forwarding|ipv6 forwarding|no ipv6 forwarding|version 2$|ospf router-id |"
                    r"router-id |description |no shutdown|link-detect|ip ospf network point-to-point$|"
                    r"ip ospf hello-interval 10$|ip ospf dead-interval 40$)")


@dataclass
class Interface:
    """An interface: its addresses, and what OSPF is told of it."""

    name: str
    addresses: list[Interface4] = field(default_factory=list)
    cost: int | None = None
    area: str | None = None
    is_down: bool = False
    is_passive: bool = False


@dataclass
class Protocol:
    """A part `router ospf` or `router rip`.

    `others` are the interfaces that are passive, or the ones that aren't if the others are (`is_passive`).
    """

    networks: list[Network4 | str] = field(default_factory=list)
    redistributes: bool = False
    is_passive: bool = False
    others: set[str] = field(default_factory=set)

    def take_passive(self, name: str, is_passive: bool) -> None:
        """Takes `passive-interface NAME`, or `no passive-interface NAME`; NAME may be `default`."""
        if name == "default":
            self.is_passive, self.others = is_passive, set()
        elif is_passive == self.is_passive:
            self.others.discard(name)
        else:
            self.others.add(name)


@dataclass
class Router:
    """A router's configuration, as far as it is taken."""

    name: str
    interfaces: dict[str, Interface] = field(default_factory=dict)
    protocols: dict[str, Protocol] = field(default_factory=dict)
    notes: list[str] = field(default_factory=list)

    def interface(self, name: str) -> Interface:
        """The interface of this name, made if it is new."""
        return self.interfaces.setdefault(name, Interface(name))

    @property
    def kind(self) -> str | None:
        """The protocol that is taken: OSPF if the router runs it, or RIP; None if it runs neither."""
        if "ospf" in self.protocols or any(one.area is not None for one in self.interfaces.values()):
            return "ospf"
        return "rip" if "rip" in self.protocols else None

    @property
    def protocol(self) -> Protocol:
        """The part of the protocol that is taken."""
        return self.protocols.get(self.kind, Protocol())

    def borrows(self, interface: Interface, address: Interface4) -> bool:
        """Whether an interface is unnumbered: it has the address of another one, and no subnet."""
        others = [one for one in self.interfaces.values() if one is not interface and address in one.addresses]
        return bool(others) and interface.name not in LOOPBACKS and address.network.prefixlen == HOST_LENGTH


@dataclass
class End:
    """An address of an interface of a router; `place` is the router's among all, and `name` that in the case."""

    place: int
    name: str
    router: Router
    interface: Interface
    address: Interface4

    def runs(self) -> bool:
        """Whether the router's protocol runs there."""
        if self.router.kind == "ospf" and self.interface.area is not None:
            return True
        return any(one == self.interface.name if isinstance(one, str) else self.address.ip in one
                   for one in self.router.protocol.networks)

    def speaks(self) -> bool:
        """Whether the router sends there."""
        protocol = self.router.protocol
        is_passive = (self.interface.name in protocol.others) != protocol.is_passive or self.interface.is_passive
        return self.runs() and not is_passive

    def cost(self) -> int:
        """The cost: the interface's own or FRR's 10 for OSPF, and 1 for RIP."""
        return 1 if self.router.kind == "rip" else self.interface.cost or FRR_COST


def read(paths: list[str], settings: Settings) -> Network:
    """The network of configuration files, of folders with one folder a router, or of both."""
    found = [read_router(name, files) for name, files in router_files(paths)]
    if not found:
        raise BadInput("no configuration: name frr.conf files, or a folder that has one folder for each router")
    network = Network(replace(settings, networks=False))
    routers = [router for router in found if router.kind is not None]
    for router in found:
        if router.kind is None:
            network.note(f"{router.name}: it runs neither OSPF nor RIP; not taken")
    names = [take_router(network, place, router) for place, router in enumerate(routers)]
    take_subnets(network, [end for place, router in enumerate(routers)
                           for end in ends_of(network, place, names[place], router)])
    return network


def take_router(network: Network, place: int, router: Router) -> str:
    """Takes a router and what was noted of it; gives its name in the case."""
    name = network.add_router(str(place), router.name, router.kind).name
    for text in router.notes:
        network.note(f"{name}: {text}")
    if router.kind == "ospf" and "rip" in router.protocols:
        network.note(f"{name}: RIP beside OSPF: a router has one protocol, and OSPF is taken")
    return name


def router_files(paths: list[str]) -> list[tuple[str, list[str]]]:
    """Per router: its name by folder or file, and its files."""
    found: list[tuple[str, list[str]]] = []
    for path in paths:
        if not os.path.isdir(path):
            name = os.path.basename(path).removesuffix(".conf")
            folder = os.path.basename(os.path.dirname(os.path.abspath(path)))
            found.append((folder if name in ("frr", "zebra", "ospfd", "ripd") else name, [path]))
            continue
        for folder in sorted(os.listdir(path), key=natural):
            inner = os.path.join(path, folder)
            if os.path.isdir(inner):
                files = [os.path.join(inner, one) for one in sorted(os.listdir(inner)) if one.endswith(".conf")]
                found += [(folder, files)] if files else []
            elif folder.endswith(".conf"):
                found.append((folder.removesuffix(".conf"), [inner]))
    return found


def natural(name: str) -> list:
    """A key that sorts r2 before r10."""
    return [int(part) if part.isdigit() else part for part in re.split(r"(\d+)", name)]


def read_router(name: str, files: list[str]) -> Router:
    """A router of its files."""
    router = Router(name)
    for path in files:
        try:
            with open(path, encoding="utf-8", errors="replace") as file:
                lines = file.read().splitlines()
        except OSError as error:
            raise BadInput(f"can't read {path}: {reason(error)}") from error
        section: Interface | str = ""
        for number, line in enumerate(lines, 1):
            try:
                section = take_line(router, section, line.strip(), line[:1].isspace())
            except (ValueError, IndexError):
                router.notes.append(f'{os.path.basename(path)} line {number}: "{line.strip()}" can\'t be read')
    return router


def take_line(router: Router, section: Interface | str, line: str, is_inner: bool) -> Interface | str:
    """Takes a line, which is within a part if it is moved in; gives the section that the next one is in."""
    fields = line.split()
    if not fields:
        return section
    if section == OTHER and is_inner:
        if not SILENT.match(line):
            router.notes.append(f'"{line}" not taken')
    elif fields[0] == "hostname":
        router.name = router.name if fields[1] in DAEMONS else fields[1]
    elif fields[0] == "interface":
        note_rest(router, line, fields[2:])
        return router.interface(fields[1])
    elif fields[:2] in (["router", "ospf"], ["router", "rip"]):
        note_rest(router, line, fields[2:])
        router.protocols.setdefault(fields[1], Protocol())
        return fields[1]
    elif fields[0] in ("router", "route-map"):
        router.notes.append(f'"{line}" not taken')
        return OTHER
    elif isinstance(section, Interface):
        take_interface_line(router, section, fields, line)
    elif section in ("ospf", "rip"):
        take_protocol_line(router, section, fields, line)
    elif not SILENT.match(line):
        router.notes.append(f'"{line}" not taken')
    return "" if fields[0] in ("exit", "!") and len(fields) == 1 else section


def note_rest(router: Router, line: str, rest: list[str]) -> None:
    """Notes the fields of a line that aren't taken, as `vrf RED`."""
    if rest:
        router.notes.append(f'"{line}": {" ".join(rest)} not taken')


def take_interface_line(router: Router, interface: Interface, fields: list[str], line: str) -> None:
    """A line within `interface`."""
    where = f"interface {interface.name}"
    if fields[:2] == ["ip", "address"]:
        interface.addresses.append(Interface4(fields[2]))
    elif fields[:3] == ["ip", "ospf", "cost"]:
        interface.cost = int(fields[3])
    elif fields[:3] == ["ip", "ospf", "area"]:
        interface.area = fields[3]
        note_area(router, where, fields[3])
    elif fields[:3] == ["ip", "ospf", "passive"]:
        interface.is_passive = True
    elif fields == ["shutdown"]:
        interface.is_down = True
        router.notes.append(f"{where}: shut down; not taken")
    elif not SILENT.match(line):
        router.notes.append(f'{where}: "{line}" not taken')


def note_area(router: Router, where: str, area: str) -> None:
    """Notes an area other than 0."""
    if area not in ("0", "0.0.0.0"):
        router.notes.append(f"{where}: area {area}: there is one area, 0")


def take_protocol_line(router: Router, section: str, fields: list[str], line: str) -> None:
    """A line within `router ospf` or `router rip`."""
    where, protocol = f"router {section}", router.protocols[section]
    if fields[0] == "network" and section == "ospf":
        protocol.networks.append(Network4(fields[1], strict=False))
        note_area(router, f"{where}: network {fields[1]}", fields[3])
    elif fields[0] == "network":
        protocol.networks.append(Network4(fields[1], strict=False) if "/" in fields[1] else fields[1])
    elif fields[:2] == ["redistribute", "connected"]:
        protocol.redistributes = True
        note_rest(router, line, fields[2:])
    elif fields[-2:-1] == ["passive-interface"] and fields[:-2] in ([], ["no"]):
        protocol.take_passive(fields[-1], len(fields) == 2)
    elif not SILENT.match(line):
        router.notes.append(f'{where}: "{line}" not taken')


def ends_of(network: Network, place: int, name: str, router: Router) -> list[End]:
    """The addresses of a router that are up and have a subnet; the interfaces without one are noted."""
    found = []
    for interface in router.interfaces.values():
        where = f"{name}: interface {interface.name}"
        if not interface.is_down and not interface.addresses and interface.name not in LOOPBACKS:
            network.note(f"{where}: it has no address, so what is at its other end isn't known; not taken")
        for address in [] if interface.is_down else interface.addresses:
            if router.borrows(interface, address):
                network.note(f"{where}: it is unnumbered ({address}), so what is at its other end isn't known; "
                             "not taken")
            else:
                found.append(End(place, name, router, interface, address))
    return found


def take_subnets(network: Network, ends: list[End]) -> None:
    """The subnets: links, and networks; a loopback is no link."""
    subnets: dict[Network4, list[End]] = {}
    for end in ends:
        if end.interface.name in LOOPBACKS:
            take_network(network, end)
        else:
            subnets.setdefault(end.address.network, []).append(end)
    for subnet, there in subnets.items():
        for kind in ("ospf", "rip"):
            take_subnet(network, subnet, [end for end in there if end.router.kind == kind])


def take_subnet(network: Network, subnet: Network4, ends: list[End]) -> None:
    """A subnet at routers of one protocol: links between those that speak there, and a network of the others."""
    speaking = [end for end in ends if end.speaks()]
    if len({end.place for end in speaking}) < 2:
        speaking = []
    for end in ends:
        if end not in speaking:
            take_network(network, end)
    names = " ".join(end.name for end in speaking)
    if len(speaking) > 2:
        network.note(f"subnet {subnet} of {names}: links are point-to-point; each two of them get one")
    if speaking:
        network.note(f"subnet {subnet} of {names}: links are unnumbered; the subnet itself isn't told")
    for one, two in combinations(speaking, 2):
        take_link(network, one, two)


def take_network(network: Network, end: End) -> None:
    """A network of a router, if it tells of it; an OSPF router tells a loopback as a host (RFC 2328, 12.4.1.1)."""
    subnet, cost = end.address.network, end.cost()
    if not end.runs() and not end.router.protocol.redistributes:
        network.note(f"{end.name}: interface {end.interface.name}: {subnet} isn't told by {end.router.kind}; not taken")
        return
    if end.interface.name in LOOPBACKS and end.router.kind == "ospf":
        subnet, cost = Network4(end.address.ip), 1
        network.note(f"{end.name}: loopback {subnet}: FRR tells it at cost 0, and a case has costs from 1")
    network.add_prefix(str(end.place), int(subnet.network_address), subnet.prefixlen, cost)


def take_link(network: Network, one: End, two: End) -> None:
    """The link of two addresses of one subnet."""
    if one.cost() != two.cost():
        network.note(f"link {one.name} {two.name}: cost {one.cost()} and {two.cost()} the other way; a link has one "
                     "cost, the first is taken")
    network.add_link(str(one.place), str(two.place), network.settings.delay, one.cost())
