"""tools/topology: what is drawn of a case."""

import unittest
from xml.etree import ElementTree

from helping import example, example_names, needs, tool


class Pictures(unittest.TestCase):
    """The text of Graphviz, and the picture."""

    def dot(self, *words: str) -> str:
        """The text of Graphviz of the six routers."""
        done = tool("topology", "--format", "dot", *words, text=example("six_routers", ".case"))
        self.assertEqual(done.returncode, 0, done.stderr.decode())
        return done.stdout.decode()

    def test_routers_and_links(self):
        """Each router and link, with delays, costs and networks."""
        text = self.dot()
        self.assertEqual((text.count(" -- "), text.count("fillcolor")), (7, 6))
        self.assertIn("10.0.6.0/24 cost 1", text)
        self.assertEqual(text.count("delay 20<br/>cost 10"), 7)

    def test_down_and_tree(self):
        """At group 60 the link of a and d is down, and a's way to d goes round it."""
        text = self.dot("--at", "60", "--tree", "a")
        self.assertEqual(text.count("dashed"), 1)
        self.assertIn('label="d\\nat 30"', text)
        self.assertIn('label="d\\nat 10"', self.dot("--at", "59", "--tree", "a"))
        self.assertEqual(self.dot("--at", "120").count("dashed"), 0)

    def test_one_end_down(self):
        """A link of which one end is down says which."""
        done = tool("topology", "--format", "dot", "--at", "2", text=example("two_routers", ".case"))
        self.assertIn(b"down at a", done.stdout)

    @needs("neato", "graphviz")
    def test_svg(self):
        """Every example is drawn, as SVG."""
        for name in example_names(".case"):
            done = tool("topology", text=example(name, ".case"))
            self.assertEqual(done.returncode, 0, done.stderr.decode())
            self.assertEqual(ElementTree.fromstring(done.stdout).tag, "{http://www.w3.org/2000/svg}svg")

    def test_bad_inputs(self):
        """A bad case and options that name nothing."""
        six = example("six_routers", ".case")
        for words, text, told in (((), b"x", "line 1"), (("--at", "200"), six, "groups 0 to 199"),
                                  (("--tree", "z"), six, "no router is called")):
            done = tool("topology", *words, text=text)
            self.assertEqual((done.returncode, told in done.stderr.decode()), (1, True), done.stderr)


if __name__ == "__main__":
    unittest.main()
