#!/usr/bin/env python3
"""Refuses memory to the program, call by call, and looks at how it ends.

    bench/refused_memory.py [--program FILE] [--most N]

For each command below: run it once as it is; then once for each allocation, which is refused alone, and once more
for each, which is refused with all that follow. Each run must end with status 7, a front of the right bytes on
standard output, and `defined: no memory` or nothing on standard error; or, if the refused one was not needed, as the
run that is refused nothing. Commands with many allocations are tried at N of them (by default 2,000), evenly spread,
the first 500 among them. Prints one line a command, and ends with 1 if a run ended in another way.

It needs a C compiler (`cc`), which makes refuse.c a library that is loaded before the C library.
"""
import argparse
import os
import subprocess
import sys
import tempfile

HERE = os.path.dirname(os.path.abspath(__file__))
TOP = os.path.dirname(HERE)
NO_MEMORY = b"defined: no memory\n"


def run(program, words, given, library=None, at=None, rest=False, count=None):
    """The status, standard output and standard error of one run."""
    surroundings = dict(os.environ)
    if library:
        surroundings["LD_PRELOAD"] = library
        surroundings["REFUSE_COUNT"] = count
        if at:
            surroundings["REFUSE_AT"] = str(at)
        if rest:
            surroundings["REFUSE_REST"] = "1"
    done = subprocess.run([program] + words, input=given, capture_output=True, env=surroundings, timeout=60)
    return done.returncode, done.stdout, done.stderr


def places(calls, most):
    """The numbers of the allocations that are refused."""
    if calls <= most:
        return range(1, calls + 1)
    first = list(range(1, min(500, calls) + 1))
    left = most - len(first)
    step = (calls - len(first)) / left
    return first + [int(len(first) + step * (i + 1)) for i in range(left)]


def before_journal(out):
    """What stands before the journal, which tells what the threads of one run did and of no other."""
    return out.split(b"\njournal\n")[0]


def judge(whole, got):
    """None, or what is wrong about a run that was refused memory."""
    whole = (whole[0], before_journal(whole[1]), whole[2])
    status, out, err = got = (got[0], before_journal(got[1]), got[2])
    if got == whole:
        return None
    if status != 7:
        return f"status {status}"
    if not whole[1].startswith(out):
        return "no front of the right bytes"
    if err not in (b"", NO_MEMORY):
        return f"standard error {err!r}"
    return None


def inputs(program):
    """The commands that are tried, with their inputs."""
    def read(name):
        with open(os.path.join(TOP, "examples", name), "rb") as file:
            return file.read()

    pair = read("two_routers.case")
    cases = [("two_routers", pair)]
    for name in ("six_routers.case", "rip_triangle.case"):
        if os.path.exists(os.path.join(TOP, "examples", name)):
            cases.append((name[:-5], read(name)))
    for name, case in cases:
        for words in (["lockstep"], ["run", "--workers", "2"], ["run", "--workers", "2", "--journal"],
                      ["shake", "7", "--steps", "100000"]):
            yield name, words, case
        journal = run(program, ["run", "--workers", "2", "--journal"], case)[1]
        yield name, ["rerun"], journal
        yield name, ["check"], run(program, ["lockstep"], case)[1]


def main():
    reader = argparse.ArgumentParser()
    reader.add_argument("--program", default=os.path.join(TOP, "crates/defined/out/defined"))
    reader.add_argument("--most", type=int, default=2000)
    words = reader.parse_args()
    wrong = 0
    with tempfile.TemporaryDirectory() as folder:
        library = os.path.join(folder, "refuse.so")
        subprocess.run(["cc", "-O2", "-shared", "-fPIC", "-o", library, os.path.join(HERE, "refuse.c"), "-ldl"],
                       check=True)
        count = os.path.join(folder, "count")
        for name, command, given in inputs(words.program):
            whole = run(words.program, command, given, library, count=count)
            with open(count) as file:
                calls = int(file.read())
            tried = refused = 0
            for at in places(calls, words.most):
                for rest in (False, True):
                    got = run(words.program, command, given, library, at, rest, count)
                    tried += 1
                    refused += got[0] == 7
                    fault = judge(whole, got)
                    if fault:
                        wrong += 1
                        print(f"{name} {' '.join(command)}: allocation {at}{' and all after it' if rest else ''}: {fault}")
            print(f"{name} {' '.join(command)}: {calls} allocations, {tried} runs, {refused} out of memory", flush=True)
    print(f"{wrong} wrong")
    sys.exit(1 if wrong else 0)


if __name__ == "__main__":
    main()
