"""What every command has: its arguments, its input and output, and its errors."""

import argparse
import os
import signal
import sys
from collections.abc import Callable, Iterable
from typing import NoReturn, TextIO

TOP = os.path.dirname(os.path.dirname(os.path.dirname(os.path.abspath(__file__))))


class BadInput(Exception):
    """What is wrong with an input, in words for its writer."""


def parser(about: str, example: str, file: str | None = "the input; standard input if it is missing or -"):
    """An argument parser with -o, an example under --help, and an input file if `file` says what it is."""
    made = argparse.ArgumentParser(description=about, epilog="example:\n" + indented(example),
                                   formatter_class=argparse.RawDescriptionHelpFormatter)
    if file is not None:
        made.add_argument("file", nargs="?", metavar="FILE", help=file)
    made.add_argument("-o", "--output", metavar="FILE", help="the output; standard output if it is missing or -")
    return made


def indented(text: str) -> str:
    """The lines, each moved in by two spaces."""
    return "\n".join("  " + line for line in text.strip().splitlines())


def read(path: str | None) -> bytes:
    """All bytes of a file, or of standard input if there is no path or it is `-`; raises `BadInput`."""
    try:
        if path not in (None, "-"):
            with open(path, "rb") as file:
                return file.read()
        return stream(sys.stdin, "read standard input").buffer.read()
    except OSError as error:
        raise BadInput("can't read %s: %s" % (path or "standard input", reason(error))) from error


def write(path: str | None, data: str | bytes) -> None:
    """Writes text or bytes to a file, or to standard output if there is no path or it is `-`; raises `BadInput`."""
    raw = data.encode() if isinstance(data, str) else data
    try:
        if path not in (None, "-"):
            with open(path, "wb") as file:
                file.write(raw)
        else:
            buffer = stream(sys.stdout, "write standard output").buffer
            buffer.write(raw)
            buffer.flush()
    except OSError as error:
        raise BadInput("can't write %s: %s" % (path or "standard output", reason(error))) from error


def write_lines(path: str | None, lines: Iterable[str]) -> None:
    """Writes lines as they come, each with a newline, as `write` does."""
    try:
        if path not in (None, "-"):
            with open(path, "w", encoding="utf-8") as file:
                file.writelines(line + "\n" for line in lines)
        else:
            output = stream(sys.stdout, "write standard output")
            output.writelines(line + "\n" for line in lines)
            output.flush()
    except OSError as error:
        raise BadInput("can't write %s: %s" % (path or "standard output", reason(error))) from error


def stream(found: TextIO | None, purpose: str) -> TextIO:
    """A standard stream; raises `BadInput` if it is closed."""
    if found is None:
        raise BadInput("can't %s: it is closed" % purpose)
    return found


def is_for_terminal(path: str | None) -> bool:
    """Whether what is written to this path is shown on a terminal."""
    return path in (None, "-") and sys.stdout is not None and sys.stdout.isatty()


def reason(error: OSError) -> str:
    """Why the operating system refused."""
    return (error.strerror or str(error)).lower()


def warn(words: str) -> None:
    """A line on standard error that doesn't end the tool."""
    print("%s: %s" % (name(), words), file=sys.stderr)


def name() -> str:
    """The tool's name."""
    return os.path.basename(sys.argv[0])


def program() -> str:
    """The path of the proved program: the environment's `PROGRAM`, or `./defined` of this repository."""
    return os.environ.get("PROGRAM", os.path.join(TOP, "defined"))


def run(main: Callable[[], int | None], bad: int = 1) -> NoReturn:
    """Runs a tool and ends with its status: `bad` for a bad input, 130 if it is interrupted.

    A reader that has gone away ends it as any other program of a pipe.
    """
    if hasattr(signal, "SIGPIPE"):
        signal.signal(signal.SIGPIPE, signal.SIG_DFL)
    try:
        sys.exit(main() or 0)
    except BadInput as fault:
        warn(str(fault))
        sys.exit(bad)
    except KeyboardInterrupt:
        sys.exit(130)
