#!/usr/bin/env python3
"""Runs the program of bench/fabric_speed.txt on the cases in the folder given, three times in each way, and prints
the best rate, what was taken back, and the peak memory."""
import os
import subprocess
import sys

TIMES = 3
CASES = ["storm_40", "ospf_ring_100"]


def run(program, way, path):
    with open(path, "rb") as source:
        child = subprocess.Popen([program, way], stdin=source, stdout=subprocess.PIPE)
        lines = [line.split() for line in child.stdout.read().decode().splitlines()]
        _, status, usage = os.wait4(child.pid, 0)
    if status != 0:
        sys.exit(f"{way}: status {status}")
    return lines, usage.ru_maxrss * 1024, usage.ru_utime + usage.ru_stime


def measure(program, way, path):
    results = [run(program, way, path) for _ in range(TIMES)]
    best = min(int(lines[0][5]) for lines, _, _ in results)
    peak = min(peak for _, peak, _ in results)
    spent = min(spent for _, _, spent in results)
    # The counts of `shake` are those of its journal, taken again.
    lines = run(program, "count", path)[0] if way == "shake" else results[0][0]
    steps, rollbacks, rows = (int(word) for word in lines[0][1:4])
    stale, unsends = (int(word) for word in lines[1][3:5])
    return best, spent, peak, steps, rollbacks, rows, stale, unsends, lines[0][4]


def main():
    program, folder = sys.argv[1:]
    for case in CASES:
        path = os.path.join(folder, case + ".case")
        _, empty, _ = run(program, "nothing", path)
        for way in ["shake", "work", "late"]:
            best, spent, peak, steps, rollbacks, rows, stale, unsends, whole = measure(program, way, path)
            print(
                f"{case} {way}: {steps} steps in {best / 10**9:.3f} s, {steps * 10**9 / best:,.0f} a second ({spent:.2f} s of processor time), "
                f"{rollbacks} rollbacks, {stale} stale, {unsends} unsends, {rows} rows, whole {whole}, "
                f"peak {peak - empty:,} bytes, {(peak - empty) / max(rows, 1):,.0f} a row",
                flush=True,
            )
    print(f"load: {os.getloadavg()[0]:.1f} on {os.cpu_count()} processors")


main()
