#!/usr/bin/env bash
# Prints how long `run` takes on 1, 2 and 4 worker threads beside `lockstep`, on cases of 64 routers, with the
# rollbacks of one run by its journal, and the peak memory. The bytes of every run are compared with those of
# `lockstep`, and each journal is taken by `rerun`.
#
#     bench/threads.sh [INPUT..]    names of bench/inputs.py; by default six of them
#
# ROUNDS is how often each is timed (5); the least time counts. PROGRAM names another build of the program.
set -euo pipefail
cd "$(dirname "$0")/.."
export PROGRAM=${PROGRAM:-$PWD/crates/defined/out/defined}
[ -x "$PROGRAM" ] || ./defined lockstep < examples/smallest.case > /dev/null
work=$(mktemp -d)
trap 'rm -rf "$work"' EXIT
python3 bench/inputs.py "$work"
[ $# -gt 0 ] || set -- ring_40 storm_40 idle_3125 ospf_ring_100 ospf_ring rip_ring
exec python3 bench/threads.py "$work" "${ROUNDS:-5}" "$@"
