"""tools/import: cases of each form, and what is told of what couldn't be taken."""

import json
import os
import tempfile
import unittest

from helping import TOOLS, defined, example, needs_defined, tool
from library import packages

NETWORKS = os.path.join(TOOLS, "tests", "networks")
GRAPHS = unittest.skipUnless(packages.find("networkx") or os.path.exists("/usr/lib/python3/dist-packages/networkx"),
                             "networkx isn't installed (package python3-networkx)")
NODE_LINK = {"directed": False, "multigraph": False, "graph": {},
             "nodes": [{"id": "A1", "kind": "rip", "prefixes": ["10.1.0.0/16 2"]}, {"id": 2, "colour": "red"}],
             "links": [{"source": "A1", "target": 2, "weight": 3, "delay": 7.5}]}
TOML = """
period = 100
groups = 20
seed = 3
feed = ["@5 down a b", "@6 set a 10.9.0.0/16 cost 2", "@7 withdraw b 10.0.6.0/24", "@2 a cmd 41"]
[[router]]
name = "a"
kind = "ospf"
[[router]]
name = "b"
[[link]]
a = "a"
b = "b"
delay = 20
cost = 10
[[prefix]]
router = "b"
net = "10.0.6.0/24"
cost = 1
"""

LAB = {"r1": """interface eth0
 ip address 10.0.12.1/24
interface eth1
 ip address 10.255.0.1/32
 ip ospf area 0
interface eth2
 ip address 192.168.1.1/24
interface eth3
 ip ospf area 0
interface eth4
 ip address 10.0.13.1/24
interface lo
 ip address 10.255.0.1/32
router ospf
 network 0.0.0.0/0 area 0
 passive-interface default
 no passive-interface eth0
router ospf6
 interface eth9 area 0
 exit
ip forwarding
""", "r2": """hostname ospfd
interface eth0
 ip address 10.0.12.2/24
interface eth1
 ip address 10.0.23.2/24
interface eth2
 ip address 172.16.0.2/24
router ospf vrf RED
 network 10.0.12.0/24 area 0
 redistribute connected
router rip
 network eth2
""", "r3": """interface eth0
 ip address 10.0.23.3/24
interface eth1
 ip address 172.16.0.3/24
interface eth2
 ip address 10.0.13.3/24
router rip
 network 172.16.0.0/16
""", "h1": """interface eth0
 ip address 192.168.1.100/24
""", "h2": "hostname h2\n"}


def path(name: str) -> str:
    """A file of the networks."""
    return os.path.join(NETWORKS, name)


class Forms(unittest.TestCase):
    """Each form becomes a case, and tells what wasn't taken."""

    def taken(self, *words: str, text: bytes | str = b"") -> tuple[list[str], list[str]]:
        """The lines of the case and of what was told."""
        done = tool("import", *words, text=text)
        self.assertEqual(done.returncode, 0, done.stderr.decode())
        return done.stdout.decode().splitlines(), done.stderr.decode().splitlines()

    @GRAPHS
    def test_graphml(self):
        """A graph of the Topology Zoo's form: names, delays by distance, costs by speed."""
        case, told = self.taken(path("three_cities.graphml"))
        self.assertEqual(case[4:9], ["router newyork ospf", "router chicago ospf", "router saopaulo ospf",
                                     "link newyork chicago 6 10", "link chicago saopaulo 10 10"])
        self.assertIn("import: link saopaulo saopaulo: both ends at one router", told)
        self.assertIn("import: link chicago saopaulo: label 'slow' not taken", told)

    @GRAPHS
    def test_graphml_from_standard_input(self):
        """The same from standard input, without networks."""
        with open(path("three_cities.graphml"), "rb") as file:
            case, _ = self.taken("--no-networks", "--kind", "rip", text=file.read())
        self.assertEqual(case[4], "router newyork rip")
        self.assertFalse([line for line in case if line.startswith("prefix")])

    @GRAPHS
    def test_networkx(self):
        """Node-link data, with the links under either name, and adjacency data."""
        for text in (NODE_LINK, {**NODE_LINK, "edges": NODE_LINK["links"], "links": None}):
            case, told = self.taken("--no-networks", text=json.dumps(text))
            self.assertEqual(case[4:8], ["router a1 rip", "router r2 ospf", "link a1 r2 8 3",
                                         "prefix a1 10.1.0.0/16 2"])
            self.assertIn("import: router r2: colour 'red' not taken", told)
        adjacency = {"directed": True, "multigraph": False, "graph": [], "nodes": [{"id": "x"}, {"id": "y"}],
                     "adjacency": [[{"id": "y", "cost": 4}], [{"id": "x", "cost": 5}]]}
        case, told = self.taken(text=json.dumps(adjacency))
        self.assertIn("link x y 10 4", case)
        self.assertIn("import: link x y: other numbers the other way; those of the first direction are taken", told)

    def test_topotest(self):
        """A topotest's topology."""
        case, told = self.taken(path("topotest.json"), "--event", "@3 down r0 r1 2")
        self.assertEqual(case[4:], ["router r0 ospf", "router r1 ospf", "link r0 r1 10 7", "link r0 r1 10 10",
                                    "prefix r0 1.0.0.17/32 1", "prefix r1 1.0.1.17/32 1", "feed", "@3 r0 down 1",
                                    "@3 r1 down 1", "end"])
        for line in ("r1: bgp not taken", "r1: interface to r9: no such router; not taken",
                     "r1: interface to r0-link2: area 0.0.0.3: there is one area, 0"):
            self.assertIn("import: " + line, told)

    def test_frr(self):
        """FRR configurations, one or several files a router."""
        case, told = self.taken(path("frr"))
        self.assertEqual(case[4:], ["router r1 ospf", "router r2 ospf", "router r3 ospf", "link r1 r2 10 5",
                                    "link r2 r3 10 10", "prefix r1 10.255.0.1/32 1", "prefix r1 192.168.1.0/24 10",
                                    "feed", "end"])
        for line in ("r1: \"router bgp 65000\" not taken",
                     "r3: interface eth1: 10.3.0.0/24 isn't told by ospf; not taken",
                     "link r1 r2: cost 5 and 10 the other way; a link has one cost, the first is taken"):
            self.assertIn("import: " + line, told)

    def test_frr_lab(self):
        """Hosts, passive and unnumbered interfaces, and two protocols: what is linked, told, and left out."""
        with tempfile.TemporaryDirectory() as folder:
            for name, text in LAB.items():
                os.mkdir(os.path.join(folder, name))
                with open(os.path.join(folder, name, "frr.conf"), "w", encoding="ascii") as file:
                    file.write(text)
            case, told = self.taken(folder)
        self.assertEqual(case[4:-2], [
            "router r1 ospf", "router r2 ospf", "router r3 rip", "link r1 r2 10 10",
            "prefix r1 10.255.0.1/32 1", "prefix r1 192.168.1.0/24 10", "prefix r1 10.0.13.0/24 10",
            "prefix r2 10.0.23.0/24 10", "prefix r2 172.16.0.0/24 10", "prefix r3 172.16.0.0/24 1"])
        for line in ("h1: it runs neither OSPF nor RIP; not taken", "h2: it runs neither OSPF nor RIP; not taken",
                     "r1: interface eth1: it is unnumbered (10.255.0.1/32), so what is at its other end isn't known; "
                     "not taken", 'r1: "interface eth9 area 0" not taken',
                     "r1: interface eth3: it has no address, so what is at its other end isn't known; not taken",
                     'r2: "router ospf vrf RED": vrf RED not taken',
                     "r2: RIP beside OSPF: a router has one protocol, and OSPF is taken",
                     "r3: interface eth0: 10.0.23.0/24 isn't told by rip; not taken"):
            self.assertIn("import: " + line, told)
        self.assertFalse([line for line in told if "forwarding" in line])

    def test_topotest_without_ospf(self):
        """A link on which one end has no OSPF, and a host."""
        ospf = {"ospf": {"area": "0.0.0.0"}}
        routers = {"r1": {"links": {"r2": ospf, "r2-x": {}, "h": ospf}, "rip": {}},
                   "r2": {"links": {"r1": ospf, "r1-x": ospf}}, "h": {"links": {"r1": {}}}}
        case, told = self.taken(text=json.dumps({"routers": routers}))
        self.assertEqual([line for line in case if line.startswith("link")], ["link r1 r2 10 10", "link r1 h 10 10"])
        self.assertEqual(told, ["import: h: no protocol is named; ospf is taken",
                                "import: r1: RIP beside OSPF: a router has one protocol, and OSPF is taken",
                                "import: link r1 r2: no ospf on it at r1; not taken"])

    @GRAPHS
    def test_given_networks(self):
        """A network that a router has of its own is given to no other, and a cost too great is told."""
        graph = {"nodes": [{"id": "a"}, {"id": "b", "prefixes": "10.0.0.0/24"}],
                 "links": [{"source": "a", "target": "b", "LinkSpeedRaw": 1000}]}
        case, told = self.taken(text=json.dumps(graph))
        self.assertEqual(case[7:9], ["prefix a 10.0.1.0/24 1", "prefix b 10.0.0.0/24 1"])
        self.assertIn("import: link a b: cost 100000000 is outside 1 to 65535; the nearest is taken", told)

    def test_toml(self):
        """A case in TOML, with links and commands in words."""
        case, told = self.taken(text=TOML)
        self.assertEqual(case[:4] + case[-6:], ["defined 1", "period 100", "groups 20", "seed 3", "@2 a cmd 41",
                                                "@5 a down 0", "@5 b down 0", "@6 a cmd 010a090000100002",
                                                "@7 b cmd 020a00060018", "end"])
        self.assertEqual(told, [])
        tables = TOML.replace('"@2 a cmd 41"', '{group = 2, router = "a", cmd = "41"}')
        self.assertEqual(self.taken(text=tables + "metric = 3\n"), (case, [
            "import: prefix 1: metric not taken; known are cost, net, router"]))

    def test_case_with_words(self):
        """A case whose feed is in words becomes the case that it means."""
        text = example("six_routers", ".case")
        words = text.replace(b"@60 a down 1\n@60 d down 1\n", b"@60 down a d\n")
        words = words.replace(b"@120 a up 1\n@120 d up 1\n", b"@120 up a d\n")
        self.assertEqual(tool("import", text=words).stdout, text)
        self.assertEqual(tool("import", text=text).stdout, text)
        backend = text.replace(b"router b ", b"router bend ").replace(b"link a b ", b"link a bend ")
        backend = backend.replace(b"b c", b"bend c").replace(b"feed\n", b"feed\n@60 down a bend\n")
        self.assertIn(b"\n@60 bend down 0\n", tool("import", text=backend).stdout)

    @needs_defined
    def test_the_program_takes_them(self):
        """What is written is a case to the program."""
        for words in ([path("topotest.json")], [path("frr")]):
            self.assertEqual(defined("run", text=tool("import", *words).stdout).returncode, 0)


class BadInputs(unittest.TestCase):
    """A bad input is told, and the status isn't 0."""

    def test_bad_inputs(self):
        """Each with a part of what is told."""
        named = b'period=1\n[[router]]\nname="a"\n'
        cases = ((b"", "looks like none of"), (b"{", "no JSON"), (b"{}", "no JSON of networkx"),
                 (b"period = ", "no TOML"), (b'routers = "x"', "the file: routers not taken"),
                 (named + b"[[feed]]\ngroup=1\nrouter='a'", "none of cmd, down and up"),
                 (b'[[router]]\nname="a"\nkind="bgp"', 'kind "bgp"'), (b"period=0\n" + named[9:], "range"),
                 (named + b'[[link]]\na="a"\nb="b"', "no router b"), (named + b'[[link]]\na="a"', "b of a link is missing"),
                 (b'feed=["@5 down a b"]\n' + named, "no router is called b"),
                 (b'feed=["@999 a cmd 41"]\n' + named, "group 999, and the last one is 199"),
                 (b'feed=["@5 a shut 1"]\n' + named, "neither words"),
                 (b'{"routers": []}', "no topology of a topotest"), (b"defined 1\n", 'expected "period N"'),
                 (b"defined 1\r\n", "carriage return"),
                 (b"<graphml", "no GraphML"))
        self.assertIn(b"--reference nan isn't above 0", tool("import", "--reference", "nan", text=named).stderr)
        self.assertIn(b"--delay 0 isn't from 1 to 1000000", tool("import", "--delay", "0", text=named).stderr)
        for text, words in cases:
            done = tool("import", text=text)
            self.assertNotEqual(done.returncode, 0, text)
            self.assertIn(words, done.stderr.decode(), text)
            self.assertEqual(done.stdout, b"")

    @GRAPHS
    def test_many_routers(self):
        """More routers than a case has are refused, and --around takes the nearest."""
        ring = {"directed": False, "multigraph": False, "graph": {}, "nodes": [{"id": "r%d" % n} for n in range(70)],
                "links": [{"source": "r%d" % n, "target": "r%d" % ((n + 1) % 70)} for n in range(70)]}
        done = tool("import", text=json.dumps(ring))
        self.assertEqual((done.returncode, b"at most 64" in done.stderr), (1, True))
        done = tool("import", "--around", "r5", text=json.dumps(ring))
        self.assertEqual(done.returncode, 0)
        self.assertEqual(done.stdout.count(b"\nrouter "), 64)

    def test_many_links(self):
        """A 17th port of a router isn't taken, and told."""
        star = {"routers": {"hub": {"links": {"r1-l%d" % n: {} for n in range(18)}},
                            "r1": {"links": {"hub-l%d" % n: {} for n in range(18)}}}}
        done = tool("import", text=json.dumps(star))
        self.assertEqual((done.returncode, done.stdout.count(b"\nlink ")), (0, 16))
        self.assertEqual(done.stderr.count(b"link hub r1: hub has 16 ports already; not taken"), 2)


if __name__ == "__main__":
    unittest.main()
