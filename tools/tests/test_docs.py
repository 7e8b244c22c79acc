"""What the pages show is what comes out: docs/TOOLS.md of explain, pcap, compare and why, docs/TUTORIAL.md, docs/RIP.md."""

import os
import re
import subprocess
import tempfile
import unittest

from helping import TOP, built_program, needs, needs_defined

MY_CASE = "defined 1\nperiod 100\ngroups 2\nrouter a ospf\nfeed\nend\n"


def page(name: str) -> str:
    """The text of a page."""
    with open(os.path.join(TOP, "docs", name), encoding="utf-8") as file:
        return file.read()


def blocks_of(name: str, section: str) -> list[str]:
    """The blocks of a section of a page that begin with a command."""
    text = page(name).split("\n## " + section)[1].split("\n## ")[0]
    return re.findall(r"^```\n(\$ .*?)^```$", text, re.M | re.S)


def top_like(folder: str) -> None:
    """Makes a folder look as the top of the repository does to someone who runs commands there."""
    for name, target in {"defined": built_program(), "tools": TOP + "/tools", "examples": TOP + "/examples"}.items():
        os.symlink(target, os.path.join(folder, name))


def played(block: str, folder: str) -> str:
    """The block as it comes out if its commands are run in a folder; one that ends with a pipe goes on below."""
    shown = []
    for line in re.findall(r"^\$ (?:.*\|\n)*.*\n", block, re.M):
        done = subprocess.run(["bash", "-c", line[2:]], cwd=folder, stdout=subprocess.PIPE, check=False,
                              stderr=subprocess.DEVNULL if "tshark" in line else subprocess.STDOUT,
                              env={**os.environ, "PROGRAM": built_program()})
        shown.append(line + done.stdout.decode())
    return "".join(shown)


def compare(test: unittest.TestCase, name: str, section: str) -> None:
    """Plays the blocks of a section of a page."""
    with tempfile.TemporaryDirectory() as folder:
        top_like(folder)
        with open(os.path.join(folder, "my.case"), "w", encoding="ascii") as file:
            file.write(MY_CASE)
        blocks = blocks_of(name, section)
        test.assertTrue(blocks)
        for block in blocks:
            test.assertEqual(played(block, folder), block)


@needs_defined
class Shown(unittest.TestCase):
    """The blocks of the pages."""

    def test_explain(self):
        """explain."""
        compare(self, "TOOLS.md", "`explain`")

    def test_compare(self):
        """compare."""
        compare(self, "TOOLS.md", "`compare`")

    def test_why(self):
        """why."""
        compare(self, "TOOLS.md", "`why`")

    @needs("tshark", "tshark")
    def test_pcap(self):
        """pcap, with tshark."""
        compare(self, "TOOLS.md", "`pcap`")

    def test_counting(self):
        """Counting to infinity."""
        compare(self, "RIP.md", "Counting to infinity")

    def test_tutorial(self):
        """Each block of commands prints what is below it, one after the other."""
        blocks = re.findall(r"^```sh\n(.*?)^```\n(?:```text\n(.*?)^```\n)?", page("TUTORIAL.md"), re.M | re.S)
        self.assertGreater(len(blocks), 20)
        with tempfile.TemporaryDirectory() as folder:
            top_like(folder)
            for commands, printed in blocks:
                done = subprocess.run(["bash", "-c", commands], cwd=folder, stdout=subprocess.PIPE, check=False,
                                      stderr=subprocess.STDOUT, env={**os.environ, "PROGRAM": built_program()})
                self.assertEqual(done.stdout.decode(), printed, commands)
