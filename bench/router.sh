#!/usr/bin/env bash
# Prints how many events a second one router takes, and its peak memory (bench/router_speed.txt).
set -euo pipefail
source "$(dirname "$0")/build.sh"
build_and_run router_speed dn_router anyhow < /dev/null
python3 bench/router_peak.py "$work/crates/router_speed/out/router_speed"
