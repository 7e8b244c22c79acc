#!/usr/bin/env bash
# Prints how many entries, routes and messages a second the calls of the RIP crates take (bench/rip_speed.txt).
set -euo pipefail
source "$(dirname "$0")/build.sh"
build_and_run rip_speed rip_table anyhow < /dev/null
grep -E '^(response|reply|tick|decode):' "$work/log"
