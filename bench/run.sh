#!/usr/bin/env bash
# Prints rows per second and peak memory of the built program on each measured input.
set -eu
cd "$(dirname "$0")/.."
command=${1:-run}
python3 bench/inputs.py bench/data
./defined "$command" </dev/null >/dev/null 2>&1 || true
for input in bench/data/*.case; do
    python3 bench/measure.py "$command" "$input"
done
