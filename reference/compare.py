#!/usr/bin/env python3
"""Compares the program with the model on generated inputs: python3 reference/compare.py --help"""

import argparse
import os
import random
import sys

sys.dont_write_bytecode = True

from comparison import Comparison, Different, missing_commands  # noqa: E402
from parts import DEFAULT, PARTS  # noqa: E402

ROOT = os.path.dirname(os.path.dirname(os.path.abspath(__file__)))


def arguments():
    """The words of the command line."""
    parser = argparse.ArgumentParser(description="Compares the program with the model on generated inputs.")
    parser.add_argument("--number", type=int, default=1, help="everything is drawn from it (default 1)")
    parser.add_argument("--count", type=int, help="at least so many inputs a part, instead of its own count")
    parser.add_argument("parts", nargs="*", metavar="PART",
                        help="of %s; without one: %s" % (" ".join(PARTS), " ".join(DEFAULT)))
    chosen = parser.parse_args()
    for name in chosen.parts:
        if name not in PARTS:
            parser.error("no part %s" % name)
    return chosen


def run_part(name, number, count, path, missing):
    """Compares the inputs of a part, where the program has its command."""
    part, comparison = PARTS[name], Comparison(path, name, missing)
    if name in missing:
        print("%s: not in the program yet" % name, flush=True)
        return
    rng = random.Random("%s %d" % (name, number))
    for first in part.FIRST:
        first(rng, comparison)
    wanted = part.COUNT if count is None else count
    while comparison.count < wanted:
        rng.choice(part.PIECES)(rng, comparison)
    print("%s: %s inputs" % (name, format(comparison.count, ",")), flush=True)


def main():
    """Runs the parts; the status is 1 at the first difference, and 2 where nothing can be compared."""
    chosen = arguments()
    path = os.path.abspath(os.environ.get("PROGRAM", os.path.join(ROOT, "defined")))
    if not os.access(path, os.X_OK):
        print("no program at " + path, file=sys.stderr)
        return 2
    missing = missing_commands(path)
    try:
        for name in chosen.parts or DEFAULT:
            run_part(name, chosen.number, chosen.count, path, missing)
    except Different as difference:
        print(difference)
        return 1
    return 0


if __name__ == "__main__":
    sys.exit(main())
