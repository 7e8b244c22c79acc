#!/usr/bin/env python3
"""Runs the program on one case three times, and prints the best time, rows per second and peak memory."""
import os
import resource
import subprocess
import sys
import time

TIMES = 3


def run(command, path):
    with open(path, "rb") as source, open("bench/data/output", "wb") as sink:
        begin = time.monotonic()
        child = subprocess.Popen(["crates/defined/out/defined", command], stdin=source, stdout=sink, stderr=subprocess.DEVNULL)
        _, status, usage = os.wait4(child.pid, 0)
        return time.monotonic() - begin, os.waitstatus_to_exitcode(status), usage.ru_maxrss


def rows():
    with open("bench/data/output", "rb") as text:
        for line in text:
            if line == b"trace\n":
                break
        count = 0
        for line in text:
            if line.startswith((b"state ", b"cut ", b"end trace ")):
                break
            count += 1
        return count


def main():
    command, path = sys.argv[1:]
    results = [run(command, path) for _ in range(TIMES)]
    best, status, peak = min(results)
    count = rows()
    name = os.path.basename(path).removesuffix(".case")
    print(f"{name}: status {status}, {count} rows in {best:.3f} s, {count / best:,.0f} rows a second, peak {peak} KiB, {peak * 1024 / max(count, 1):,.0f} bytes a row")


main()
