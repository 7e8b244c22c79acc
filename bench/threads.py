#!/usr/bin/env python3
"""Times `lockstep` and `run --workers N` on cases of a folder, in turn, and prints a table (see threads.sh)."""
import os
import subprocess
import sys
import time

PROGRAM = os.environ["PROGRAM"]
WORKERS = (1, 2, 4)


def run(words, text, to):
    """Runs the program on a text, and gives the seconds by the clock, those of all processors, and the peak in kB."""
    with open(to, "wb") as sink:
        begin = time.monotonic()
        child = subprocess.Popen([PROGRAM, *words], stdin=subprocess.PIPE, stdout=sink, stderr=subprocess.DEVNULL)
        child.stdin.write(text)
        child.stdin.close()
        _, status, usage = os.wait4(child.pid, 0)
        seconds = time.monotonic() - begin
    if os.waitstatus_to_exitcode(status) not in (0, 4):
        sys.exit(f"{' '.join(words)}: status {os.waitstatus_to_exitcode(status)}")
    return seconds, usage.ru_utime + usage.ru_stime, usage.ru_maxrss


def read(path):
    with open(path, "rb") as file:
        return file.read()


def timed(words, text, to, rounds, wanted):
    """The least time of some runs, whose bytes are those wanted, and the greatest peak."""
    results = []
    for _ in range(rounds):
        results.append(run(words, text, to))
        if wanted is not None and read(to) != wanted:
            sys.exit(f"{' '.join(words)}: other bytes")
    return min(results)[:2] + (max(it[2] for it in results),)


def journal_of(words, text, to, wanted):
    """How many rollbacks, stale orders aside, and steps a run has had; its journal is taken by `rerun`."""
    run([*words, "--journal"], text, to)
    whole = read(to)
    if not whole.startswith(wanted):
        sys.exit(f"{' '.join(words)} --journal: other bytes")
    run(["rerun"], whole, to)
    if read(to) != wanted:
        sys.exit(f"rerun of {' '.join(words)} --journal: other bytes")
    lines = whole[len(wanted):].split(b"\n")
    return sum(it.startswith(b"rollback ") for it in lines), len(lines) - 3


def main():
    folder, rounds, names = sys.argv[1], int(sys.argv[2]), sys.argv[3:]
    to = os.path.join(folder, "output")
    print("| Input | Command | Seconds | Over `lockstep` | All processors | Rollbacks | Steps | Peak MB |")
    print("|---|---|---|---|---|---|---|---|")
    for name in names:
        text = read(os.path.join(folder, name + ".case"))
        run(["lockstep"], text, to)
        wanted = read(to)
        least, used, peak = timed(["lockstep"], text, to, rounds, wanted)
        print(f"| `{name}` | `lockstep` | {least:.3f} | 1 | {used:.3f} | | | {peak / 1000:.0f} |", flush=True)
        for count in WORKERS:
            words = ["run", "--workers", str(count)]
            seconds, used, peak = timed(words, text, to, rounds, wanted)
            back, steps = journal_of(words, text, to, wanted)
            print(f"| | `run --workers {count}` | {seconds:.3f} | {seconds / least:.1f} | {used:.3f} | {back} | {steps} | {peak / 1000:.0f} |", flush=True)


main()
