"""Runs of OSPF, RIP and flooding routers, made while the model runs them, so that inputs fit the state."""

from inputs.profiles import LONG, SHORT
from model import casetext, trace
from model.program import Answer


def compared(comparison, run):
    """Compares the program's run with one of the model."""
    text = casetext.write_case(run.case)
    status = "cut" if run.cut else "ok"
    comparison.compare_with(Answer(status, out=text + trace.run_text(run)), [b"lockstep"], text)


def short(rng, comparison):
    """A case of up to some hundred groups."""
    compared(comparison, rng.choice(SHORT)(rng))


def long(rng, comparison):
    """A case of up to 4,096 groups."""
    compared(comparison, rng.choice(LONG)(rng))


COUNT = 100
FIRST = (long,) * 2
PIECES = (short,)
