"""What the tests of the tools share: running a tool, inputs, and what is skipped if a program isn't installed."""

import importlib.machinery
import importlib.util
import os
import random
import shutil
import subprocess
import sys
import unittest
from collections.abc import Iterator
from functools import lru_cache
from types import ModuleType

TOOLS = os.path.dirname(os.path.dirname(os.path.abspath(__file__)))
TOP = os.path.dirname(TOOLS)
EXAMPLES = os.path.join(TOP, "examples")
sys.path[:0] = [TOOLS, os.path.join(TOP, "reference")]

from inputs import profiles  # noqa: E402
from library.reading import Run, read_run  # noqa: E402
from model import casetext, trace  # noqa: E402
from model.lockstep import Run as Lockstep  # noqa: E402


def built_program() -> str | None:
    """The path of the proved program: `PROGRAM`, or the one built in this repository; None if there is none."""
    path = os.environ.get("PROGRAM", os.path.join(TOP, "crates", "defined", "out", "defined"))
    return os.path.abspath(path) if os.access(path, os.X_OK) else None


def needs(program: str, package: str):
    """Skips a test if a program isn't installed, and names the package that has it."""
    return unittest.skipUnless(shutil.which(program), "%s isn't installed (package %s)" % (program, package))


needs_defined = unittest.skipUnless(built_program(), "the program isn't built (./defined builds it, or set PROGRAM)")


def tool(name: str, *words: str, text: bytes | str = b"", **settings) -> subprocess.CompletedProcess:
    """Runs a tool on an input; the outputs are bytes. The built program is what it calls."""
    raw = text.encode() if isinstance(text, str) else text
    environment = dict(os.environ, PROGRAM=built_program() or "/nonexistent")
    return subprocess.run([os.path.join(TOOLS, name), *words], input=raw, capture_output=True, check=False,
                          env=environment, **settings)


def defined(*words: str, text: bytes | str = b"") -> subprocess.CompletedProcess:
    """Runs the built program on an input."""
    raw = text.encode() if isinstance(text, str) else text
    return subprocess.run([built_program(), *words], input=raw, capture_output=True, check=False)


def loaded(name: str) -> ModuleType:
    """A tool as a module, so that its functions can be called."""
    loader = importlib.machinery.SourceFileLoader("tool_" + name, os.path.join(TOOLS, name))
    module = importlib.util.module_from_spec(importlib.util.spec_from_loader(loader.name, loader))
    sys.modules[loader.name] = module
    loader.exec_module(module)
    return module


def example_names(ending: str = ".out") -> list[str]:
    """The names of the examples, without their endings."""
    return sorted(name.removesuffix(ending) for name in os.listdir(EXAMPLES) if name.endswith(ending))


def example(name: str, ending: str = ".out") -> bytes:
    """The text of an example: its output, or its case."""
    with open(os.path.join(EXAMPLES, name + ending), "rb") as file:
        return file.read()


def lockstep(text: bytes) -> bytes:
    """The recording and trace of a case by the model, as the program writes them."""
    case = casetext.read_case(text)[0]
    return casetext.write_case(case) + trace.trace_text(case)[0]


def generated(count: int, most: int = 3500) -> Iterator[tuple[str, bytes, Run]]:
    """Runs of the profiles of `reference/inputs`, each with its name, text and records; none above `most` rows."""
    number, given = 0, 0
    while given < count:
        name, text, run = profile_run(number)
        number += 1
        if len(run.rows) <= most:
            given += 1
            yield name, text, run


@lru_cache(maxsize=None)
def profile_run(number: int) -> tuple[str, bytes, Run]:
    """The run of a number, made once."""
    profile = profiles.SHORT[number % len(profiles.SHORT)]
    made: Lockstep = profile(random.Random("tools %d" % number))
    text = casetext.write_case(made.case) + trace.run_text(made)
    return "%s %d" % (profile.__name__, number), text, read_run(text, need="trace")
