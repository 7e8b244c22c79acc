"""docs/TOOLS.md: what it shows of sweep, import and capture is what they write; its case, pictures and capture file."""

import os
import re
import unittest

from helping import TOP, defined, example, needs_defined, tool
from test_docs import compare, page
from test_import import GRAPHS


class Page(unittest.TestCase):
    """The page's pictures and its case in TOML."""

    def test_pictures(self):
        """Each picture that the page names is there, and each one that is there is named."""
        named = set(re.findall(r"\(pictures/([a-z0-9_.]+)\)", page("TOOLS.md")))
        self.assertEqual(named, set(os.listdir(os.path.join(TOP, "docs", "pictures"))))

    def test_a_piece(self):
        """The piece of the six routers' chart is what chart writes."""
        words = ("--svg", "653-681", "--title", "the link of a and d goes down")
        done = tool("chart", os.path.join(TOP, "examples", "six_routers.out"), *words)
        with open(os.path.join(TOP, "docs", "pictures", "six_routers_down.svg"), "rb") as file:
            self.assertEqual(done.stdout, file.read())

    def test_a_capture(self):
        """The capture file is what pcap writes of the six routers."""
        done = tool("pcap", os.path.join(TOP, "examples", "six_routers.out"))
        with open(os.path.join(TOP, "docs", "pictures", "six_routers.pcapng"), "rb") as file:
            self.assertEqual(done.stdout, file.read())

    def test_toml(self):
        """The case in TOML is one."""
        text = re.search(r"```\n(period = .*?)```", page("TOOLS.md"), re.S).group(1)
        self.assertEqual(tool("import", text=text).returncode, 0)


@needs_defined
class Shown(unittest.TestCase):
    """The blocks of the page."""

    def test_rollbacks(self):
        """The piece with rollbacks is what chart writes of that schedule."""
        shaken = defined("shake", "3", "--steps", "1000000", text=example("ospf_pair", ".case")).stdout
        done = tool("chart", "--svg", "1-36", "--title", "a schedule with rollbacks", text=shaken)
        with open(os.path.join(TOP, "docs", "pictures", "rollbacks.svg"), "rb") as file:
            self.assertEqual(done.stdout, file.read())

    def test_sweep(self):
        """sweep."""
        compare(self, "TOOLS.md", "`sweep`")

    @GRAPHS
    def test_import(self):
        """import."""
        compare(self, "TOOLS.md", "`import`")

    def test_capture(self):
        """capture."""
        compare(self, "TOOLS.md", "`capture`")


if __name__ == "__main__":
    unittest.main()
