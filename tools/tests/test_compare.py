"""tools/compare: where two traces part."""

import tempfile
import unittest

from helping import example, lockstep, tool


def with_file(text: bytes, other: bytes, *words: str):
    """tools/compare of a text in a file and one on standard input."""
    with tempfile.NamedTemporaryFile() as file:
        file.write(text)
        file.flush()
        return tool("compare", file.name, "-", *words, text=other)


class Comparing(unittest.TestCase):
    """Two traces."""

    def test_same(self):
        """A trace and itself; and the same with other ties."""
        done = with_file(example("six_routers"), example("six_routers"))
        self.assertEqual(done.returncode, 0)
        self.assertIn(b"the 1728 rows are the same", done.stdout)
        self.assertIn(b"end with the same routes", done.stdout)
        done = with_file(example("contest_seed_0"), example("contest_seed_7"))
        self.assertEqual(done.returncode, 0, done.stdout)

    def test_link_that_stays_down(self):
        """The first row that differs is that of the port that goes up in one of them; one router's routes differ."""
        lines = example("six_routers", ".case").splitlines(True)
        text = b"".join(line for line in lines if not line.startswith(b"@120"))
        done = with_file(example("six_routers"), lockstep(text), "--lines", "2", "--before", "1", "--width", "100")
        self.assertEqual(done.returncode, 1)
        lines = done.stdout.decode().splitlines()
        self.assertIn("the first 1112 are the same without ties, and row 1113 differs", lines[0])
        self.assertEqual([line.rstrip() for line in lines[2:]], [
            "1112  120.000  f  tick                             1112  120.000  f  tick",
            "1113  120.000  a  port 1 to d goes up            <",
            "1114  120.000  d  port 1 to a goes up            <",
            "(more rows follow; --lines N shows N)",
            "a ends otherwise:",
            "  < 10.0.6.0/24 cost 31 via b, d",
            "  > 10.0.6.0/24 cost 31 via b"])

    def test_other_order(self):
        """Another seed: the order differs at once, and with any order of a moment the messages differ later."""
        text = example("six_routers", ".case")
        other = lockstep(text.replace(b"seed 9\n", b"seed 10\n"))
        strict = with_file(example("six_routers"), other).stdout.decode()
        loose = with_file(example("six_routers"), other, "--any-order").stdout.decode()
        self.assertIn("the first 6 are the same", strict)
        self.assertIn("the first 94 are the same", loose)

    def test_bad_input(self):
        """Status 2, and words."""
        done = with_file(example("six_routers"), b"defined 1\n")
        self.assertEqual(done.returncode, 2)
        self.assertIn(b'expected "period N"', done.stderr)
        self.assertEqual(tool("compare", "-", "-").returncode, 2)
        self.assertEqual(tool("compare", "/nonexistent", "-").returncode, 2)
