"""Runs the program on an input and compares its answer with the model's."""

import os
import shlex
import subprocess
import tempfile
import time

from model import live, program

# Words for which a program without the command answers that they are none, and an input for which it is none otherwise.
ASKED = {"live": [b"run", b"--live"], "debug": [b"debug"]}
PAUSE = 1.2
LEAST = b"defined 1\nperiod 1\ngroups 1\nseed 0\nrouter a flood\nfeed\nend\n"


class Different(Exception):
    """The first difference, told in lines."""


def around(data, place):
    """What stands about a place, printable."""
    return data[max(0, place - 80):place + 160].decode("ascii", "backslashreplace")


def missing_commands(path):
    """The commands that a program doesn't have yet."""
    return {name for name, words in ASKED.items()
            if answered(path, words, LEAST).returncode == program.NUMBERS["usage"]}


def answered(path, words, text, pause=None):
    """What a program answers to an input; it gets what stands behind the place `pause` a good second later."""
    pipe = subprocess.PIPE
    with subprocess.Popen([path.encode(), *words], stdin=pipe, stdout=pipe, stderr=pipe) as process:
        if pause is not None:
            process.stdin.write(text[:pause])
            process.stdin.flush()
            time.sleep(PAUSE)
        out, err = process.communicate(text[pause or 0:])
    return subprocess.CompletedProcess(process.args, process.returncode, out, err)


class Comparison:
    """Compares inputs of one part; `count` of them so far. `missing` are the commands that the program doesn't have."""

    def __init__(self, path, part, missing=()):
        self.path, self.part, self.missing, self.count = path, part, missing, 0

    def compare(self, words, text, pause=None):
        """Compares the answers to an input; gives the model's.

        A program that ends within a second has heard no beat of its clock. Of a slower one the stamps that it wrote
        are taken as what it heard, as far as so many seconds went by.
        """
        begin = time.monotonic()
        done = answered(self.path, words, text, pause)
        seconds = int(time.monotonic() - begin)
        beats = [min(stamp, seconds) for stamp in live.stamps_written(done.stdout)] if seconds else ()
        want = program.answer(words, text, beats, self.missing)
        self.judge(want, done, words, text)
        return want

    def compare_with(self, want, words, text):
        """Compares the program's answer with one that is given."""
        self.judge(want, answered(self.path, words, text), words, text)

    def judge(self, want, done, words, text):
        """Compares an answer of the program with the one that is wanted."""
        self.count += 1
        out = done.stdout
        if want.case is not None:
            out, journal = out[:len(want.out)], out[len(want.out):]
            if done.returncode == want.number and not program.is_journal_of_a_run(want.case, journal):
                raise Different("no journal of the run is behind the trace\n" + self.difference(want, done, words, text))
        if (done.returncode, done.stderr, out) != (want.number, want.err, want.out):
            raise Different(self.difference(want, done, words, text))

    def difference(self, want, done, words, text):
        """Keeps the input and what was written, and tells of them."""
        folder = tempfile.mkdtemp(prefix="reference-")
        for name, data in (("input", text), ("model", want.out), ("program", done.stdout)):
            with open(os.path.join(folder, name), "wb") as file:
                file.write(data)
        command = shlex.join(word.decode("ascii", "backslashreplace") for word in [self.path.encode(), *words])
        lines = ["%s: input %d differs" % (self.part, self.count),
                 "command: %s < %s/input" % (command, folder),
                 "model:   status %d, %r, %d bytes (%s/model)" % (want.number, want.err, len(want.out), folder),
                 "program: status %d, %r, %d bytes (%s/program)"
                 % (done.returncode, done.stderr, len(done.stdout), folder)]
        if want.out != done.stdout:
            place = program.first_difference(want.out, done.stdout)
            lines += ["the outputs differ at %d" % place, "model:   ..." + around(want.out, place),
                      "program: ..." + around(done.stdout, place)]
        return "\n".join(lines)
