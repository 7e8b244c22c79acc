"""`run` on worker threads: the bytes of `lockstep`, and a journal that the model takes to the same end."""

from inputs.casetexts import CROWD, some_case


def words(rng, journal):
    """The words of a run on some workers."""
    some = [[b"--workers", b"%d" % rng.choice((1, 2, 3, 4, 8, 16))], [b"--journal"]][:2 if journal else 1]
    rng.shuffle(some)
    return [b"run", *(word for option in some for word in option)]


def with_journal(rng, comparison):
    """A run with its journal."""
    text, _ = some_case(rng)
    comparison.compare(words(rng, True), text + rng.choice((b"", b"", b"trash")))


def without(rng, comparison):
    """A run that shows its bytes alone."""
    text, _ = some_case(rng)
    comparison.compare(rng.choice(([b"run"], words(rng, False))), text)


def crowd(rng, comparison):
    """A run of a busy network, with its journal."""
    text, _ = some_case(rng, (CROWD,))
    comparison.compare(words(rng, True), text)


COUNT = 250
FIRST = ()
PIECES = (with_journal, with_journal, with_journal, with_journal, without, crowd)
