#!/usr/bin/env bash
# How much memory `resetd serve` has over many steps, by one client: 64 orders at once, in bursts of 1 to 300, or one at a
# time, over a connection that stays (STEPS each), and over a connection for each burst or order (LEAVING each). The store is
# on a file in memory where there is such a file system, since syncs are not what is measured. The least number of steps in
# which instances end is 262,144 (two of them: 524,288 for the first).
# usage: bench/memory.sh [PROGRAM [STEPS [LEAVING [WAY..]]]]     WAY: steady, bursts, single, leaving, connects (all)
set -euo pipefail
here=$(cd "$(dirname "$0")/.." && pwd)
program=$(realpath -m "${1:-$here/bin/resetd}")
[ -x "$program" ] || { echo 'there is no proved program yet: make build makes it' >&2; exit 1; }
scratch=$(mktemp -d -p /dev/shm resetd-memory-XXXXXX 2> /dev/null || mktemp -d)
trap 'rm -rf "$scratch"' EXIT
python3 -B "$here/bench/serve/memory.py" "$program" "$scratch" "${2:-10000000}" "${3:-1000000}" "${@:4}"
