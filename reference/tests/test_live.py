"""Live feeds, worked out by hand from the rules."""

import unittest

from worked import TWO, answered

FRONT = TWO[:TWO.index("@0")].replace("groups 4", "groups 5")
FIVE = ("a cmd 41", "b cmd 42", "a cmd 43", "b cmd 44", "a cmd 45")


class Live(unittest.TestCase):
    """What is written and answered for a live feed of lines."""

    def told(self, behind, beats, externals, status=0, err="", front=FRONT):
        """The output for the bytes behind a header is the run of these externals."""
        recording = front + "".join(line + "\n" for line in externals) + "end\n"
        self.assertEqual(answered("run --live", front + behind, beats),
                         (status, err, answered("run", recording)[2]))

    def refused(self, text, status, err):
        """Nothing is written."""
        self.assertEqual(answered("run --live", text), (status, err, ""))

    def test_stamps(self):
        """Stamps don't fall, and the last group is the greatest of them."""
        behind = "".join(line + "\n" for line in FIVE) + "end\n"
        self.told(behind, [0, 0, 3, 2, 9], ["@%d %s" % pair for pair in zip((0, 0, 3, 3, 4), FIVE)])
        self.told(behind, [], ["@0 " + line for line in FIVE])
        self.told(behind, [1, 2], ["@%d %s" % pair for pair in zip((1, 2, 2, 2, 2), FIVE)])
        self.told(behind, [1 << 64], ["@4 " + line for line in FIVE])

    def test_bad_line(self):
        """What came before the bad line is run; its number is that of the input, and what follows isn't looked at."""
        behind = "a cmd 41\nb cmd 42\na cmd 43\nz cmd 44\na cmd 45\nend\n"
        self.told(behind, [0, 0, 3, 2, 9], ["@0 a cmd 41", "@0 b cmd 42", "@3 a cmd 43"], 3, "defined: line 12: name\n")

    def test_causes(self):
        """Each cause that a live line can have."""
        for line, cause in (("", "syntax"), ("@0 a cmd 41", "syntax"), ("a cmd", "syntax"), ("a cmd 4", "syntax"),
                            ("a  cmd 41", "syntax"), ("a cmd 41 ", "syntax"), ("a tick", "syntax"), ("feed", "syntax"),
                            ("end ", "syntax"), ("a down 00", "syntax"), ("z cmd 41", "name"), ("z down 16", "range"),
                            ("z down 15", "name"), ("a down 16", "range"), ("a down 15", "port"), ("a up 1", "port"),
                            ("a up 18446744073709551616", "range"), ("a cmd " + "00" * 256, "range"),
                            ("z cmd " + "00" * 256, "range")):
            self.told("a down 0\n%s\nend\n" % line, [], ["@0 a down 0"], 3, "defined: line 10: %s\n" % cause)

    def test_ends(self):
        """The line `end`, the end of the input, and a last line without a newline, which has no reading."""
        for ending in ("end\n", "", "end\nz cmd 44\n", "end\nend"):
            self.told("a cmd 41\n" + ending, [], ["@0 a cmd 41"])
            self.told(ending, [], [])
        for ending in ("end", "b cmd 42", "z", " "):
            self.told("a cmd 41\n" + ending, [], ["@0 a cmd 41"], 3, "defined: line 10: syntax\n")

    def test_headers(self):
        """A fault before the line `feed` has come writes nothing."""
        self.refused("", 3, "defined: line 1: ended\n")
        self.refused("feed\n", 3, "defined: line 1: syntax\n")
        self.refused("defined 2\nperiod\n", 3, "defined: line 1: version\n")
        self.refused(FRONT[:-5], 3, "defined: line 8: ended\n")
        self.refused(FRONT[:-1], 3, "defined: line 8: syntax\n")
        self.refused(FRONT.replace("link a b", "link a z") + "a cmd 41\nend\n", 3, "defined: line 7: name\n")
        self.refused(FRONT.replace("feed\n", "end\nfeed\n"), 3, "defined: line 8: syntax\n")

    def test_too_big(self):
        """More bytes than may be: before the line `feed` nothing is written, and behind it what came so far is run."""
        most = 16_777_216
        self.refused("defined 2\n" + "1" * most, 8, "defined: too big\n")
        self.told("a cmd 41\nb cmd " + "0" * most, [], ["@0 a cmd 41"], 8, "defined: too big\n")
        self.told("a cmd 41\nend\n" + "0" * most, [], ["@0 a cmd 41"])
        line = "a" * (most - len(FRONT) - 1)
        self.told(line + "\n", [], [], 3, "defined: line 9: syntax\n")
        self.told(line + "aa", [], [], 8, "defined: too big\n")

    def test_words(self):
        """The flag stands once, anywhere among the options."""
        for words in ("run --live --workers 2", "run --workers 2 --live", "run --journal --live"):
            self.assertEqual(answered(words, FRONT + "end\n")[:2], (0, ""))
        for words in ("run --live --live", "lockstep --live", "run --live=", "debug --live", "debug 1"):
            self.assertEqual(answered(words, FRONT + "end\n"), (2, "defined: usage\n", ""))


if __name__ == "__main__":
    unittest.main()
