#!/usr/bin/env bash
# Prints how many steps a second a fabric takes, how often it takes back, and its peak memory
# (bench/fabric_speed.txt).
set -euo pipefail
source "$(dirname "$0")/build.sh"
build_and_run fabric_speed 'dn_io dn_drive dn_case guest_any' anyhow < /dev/null
python3 bench/inputs.py "$work/data"
python3 bench/fabric_peak.py "$work/crates/fabric_speed/out/fabric_speed" "$work/data"
