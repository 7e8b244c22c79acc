"""An input that is read line by line, up to a limit of bytes."""

INPUT_LIMIT = 16_777_216
FULL, REST, END, TOO_BIG = "full", "rest", "end", "too big"


class Lines:
    """The lines of an input that aren't read yet; `number` counts those that were read."""

    def __init__(self, text, limit=INPUT_LIMIT):
        self.text, self.limit, self.place, self.number = text, limit, 0, 0

    def next(self):
        """(what came, its bytes): a line without its newline, a last one that had none, or nothing more.

        The limit counts all bytes of the input: a line whose newline isn't among the first so many is too big, where
        there are more.
        """
        stop = self.text.find(b"\n", self.place, self.limit)
        if stop >= 0:
            return self.taken(FULL, stop, stop + 1)
        if len(self.text) > self.limit:
            return TOO_BIG, b""
        if self.place == len(self.text):
            return END, b""
        return self.taken(REST, len(self.text), len(self.text))

    def taken(self, kind, stop, after):
        """The line up to a place; the next one begins at `after`."""
        line, self.place, self.number = self.text[self.place:stop], after, self.number + 1
        return kind, line

    def gathered(self, last):
        """All bytes up to the line `last`, itself among them, or to the end; None where they are too big."""
        begin = self.place
        while True:
            kind, line = self.next()
            if kind == TOO_BIG:
                return None
            if kind != FULL or line == last:
                return self.text[begin:self.place]
