#!/usr/bin/env python3
"""Runs the program of bench/router_speed.txt three times in each way, and prints the best rate and the peak memory."""
import os
import subprocess
import sys

TIMES = 3


def run(program, way):
    child = subprocess.Popen([program], stdin=subprocess.PIPE, stdout=subprocess.PIPE)
    child.stdin.write(way.encode() + b"\n")
    child.stdin.close()
    words = child.stdout.read().split()
    _, status, usage = os.wait4(child.pid, 0)
    if status != 0:
        sys.exit(f"{way}: status {status}")
    return words, usage.ru_maxrss * 1024


def main():
    program = sys.argv[1]
    _, empty = run(program, "nothing")
    for way in ["order", "reverse", "unsent"]:
        results = [run(program, way) for _ in range(TIMES)]
        best = min(int(words[4]) for words, _ in results)
        peak = min(peak for _, peak in results)
        came, handled, done = (int(word) for word in results[0][0][1:4])
        print(
            f"{way}: {came} events came, {handled} were handled, {done} are left, {best} ns: "
            f"{came * 10**9 / best:,.0f} that came and {handled * 10**9 / best:,.0f} that were handled a second, "
            f"{(peak - empty) / came:,.0f} bytes an event"
        )
    print(f"load: {os.getloadavg()[0]:.1f} on {os.cpu_count()} processors")


main()
