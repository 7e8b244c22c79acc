#!/usr/bin/env bash
# Prints how many calls of the OSPF crates and how many steps of OSPF routers are made a second
# (bench/ospf_speed.txt, bench/ospf_steps.txt).
set -euo pipefail
source "$(dirname "$0")/build.sh"

# Prints the lines of the log that begin with one of these words, each with its rate.
rates() {
    grep -E "^($1):" "$work/log" | awk '{
        for (i = 2; i <= NF; i++) {
            if ($i ~ /^(calls|steps),?$/) count = $(i - 1)
            if ($i == "ns") time = $(i - 1)
        }
        printf "%s, %.0f a second\n", $0, count * 1e9 / time
    }'
}

calls='ospf_flood ospf_spf'
build_and_run ospf_speed "$calls" 'hex anyhow' < <(python3 bench/ospf_packets.py)
rates 'newer|decode|install|age|receive|routes'
build_and_run ospf_steps "$calls ospf_router" anyhow < /dev/null
rates steps
