#!/usr/bin/env bash
# Where the time of an order to `resetd serve` goes, on a real file system: beside stand-ins of a server that
# have one part of it more each, by turns; some 20 seconds. Have the machine do nothing else meanwhile.
# usage: bench/order.sh [PROGRAM [FOLDER]]
set -euo pipefail
here=$(cd "$(dirname "$0")/.." && pwd)
program=$(realpath -m "${1:-$here/bin/resetd}")
folder=${2:-/var/tmp}
[ -x "$program" ] || { echo 'there is no proved program yet: make build makes it' >&2; exit 1; }
system=$(df --output=fstype "$folder" | tail -n 1)
[ "$system" != tmpfs ] || { echo "$folder is in memory: give a folder of a real file system" >&2; exit 1; }
scratch=$(mktemp -d -p "$folder" resetd-order-XXXXXX)
trap 'rm -rf "$scratch"' EXIT
echo "files in $folder, on $system"
python3 -B "$here/bench/serve/order.py" "$program" "$scratch"
