#!/usr/bin/env python3
"""Writes the cases that bench/run.sh measures into the folder given."""
import os
import sys


def case(period, groups, routers, links, feed, kind="flood", prefixes=False):
    lines = ["defined 1", f"period {period}", f"groups {groups}", "seed 0"]
    lines += [f"router r{i} {kind}" for i in range(routers)]
    lines += [f"link r{a} r{b} {delay} 1" for a, b, delay in links]
    if prefixes:
        lines += [f"prefix r{i} 10.{i}.0.0/16 1" for i in range(routers)]
    lines += ["feed", *feed, "end"]
    return "\n".join(lines) + "\n"


def ring(routers, reach):
    return [(i, (i + step) % routers, 1 + (i * 7 + step * 13) % 20) for step in range(1, reach + 1) for i in range(routers)]


def chords(routers, every, span):
    return [(i, (i + span) % routers, 1 + (i * 7 + span * 13) % 20) for i in range(0, routers, every)]


def storm(routers, reach):
    return [(i, (i + step) % routers, 1) for i in range(routers) for step in range(1, reach + 1)]


def commands(count, routers):
    return [f"@0 r{i % routers} cmd {i:04x}" for i in range(count)]


CASES = {
    "ticks": case(100, 200, 1, [], []),
    "ring_40": case(1000, 1, 64, ring(64, 4), commands(40, 64)),
    "ring_450": case(1000, 1, 64, ring(64, 4), commands(450, 64)),
    "idle_1000": case(100, 1000, 64, [], []),
    "idle_3125": case(100, 3125, 64, [], []),
    "ospf_ring": case(1000, 400, 64, ring(64, 1) + chords(64, 4, 16), [], "ospf", True),
    "storm_40": case(1000, 1, 64, storm(64, 4), commands(40, 1)),
    "ospf_ring_100": case(1000, 100, 64, ring(64, 1) + chords(64, 4, 16), [], "ospf", True),
    "rip_ring": case(1000, 400, 64, ring(64, 1), [], "rip", True),
}

MIXED = """defined 1
period 100
groups 12
seed 5
router a flood
router b ospf
router c rip
router d ospf
router e rip
link a b 10 1
link b c 120 1
link a c 30 1
link b d 20 1
link c e 70 1
prefix b 10.9.0.0/16 1
prefix c 10.8.0.0/16 1
feed
@0 a cmd 41
@1 c cmd 020a08000010
@5 b down 2
@8 b up 2
end
"""
CASES["mixed"] = MIXED


def main():
    folder = sys.argv[1]
    os.makedirs(folder, exist_ok=True)
    for name, text in CASES.items():
        with open(os.path.join(folder, name + ".case"), "w") as out:
            out.write(text)


main()
