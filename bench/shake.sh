#!/usr/bin/env bash
# Prints how many steps a second `shake 7 --steps 1000000` takes on two cases of 64 flooding routers with 40
# commands. That all schedules come to the bytes of `lockstep` is compared by `.ci/schedules`, in the gate.
set -euo pipefail
cd "$(dirname "$0")/.."
program=${PROGRAM:-crates/defined/out/defined}
[ -x "$program" ] || ./defined lockstep < examples/smallest.case > /dev/null
work=$(mktemp -d)
trap 'rm -rf "$work"' EXIT
python3 bench/inputs.py "$work/data" > /dev/null
for name in ring_40 storm_40; do
    begin=$(date +%s.%N)
    status=0
    "$program" shake 7 --steps 1000000 < "$work/data/$name.case" > "$work/shaken" 2> /dev/null || status=$?
    end=$(date +%s.%N)
    steps=$(sed -n 's/^end journal //p' "$work/shaken" | tail -n 1)
    seconds=$(echo "$end - $begin" | bc)
    echo "$name: status $status, ${steps:-no} steps in $seconds s, $(echo "${steps:-0} / $seconds" | bc) a second"
done
