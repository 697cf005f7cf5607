#!/usr/bin/env bash
# What a client of `resetd serve` waits for on a real file system: the time to the answer of one command
# over one connection (p50 and p99 of resets of a node without links, each one step that is settled by two
# syncs, and of `show`, also of the greatest network), beside raw pairs of a pwrite of as many bytes as the
# log grows by and an fdatasync in the same folder and the same seconds; and the commands a second, one after
# the other and with several sent before the answers are read. Then how long a start takes until it listens, where the log is of 1, 4
# and 16 MiB, beside `resetd check` and a plain read of the same file, which the system still has in memory.
# The logs are made by the program itself, by resets of a ring of 64 nodes with chords, on a file system in
# memory where there is one, since their syncs are not what is measured. The last one stays a little below
# 16 MiB: a half has no more than that, and one that is full is left by a checkpoint.
# Then one wave over that ring, from the reset to its last signal line, over a file and over one whose syncs wait a
# millisecond first. Then orders that are sent together: 1, 4, 16, 64 and 256 before the first answer is read, by 16 clients in turn
# and by one, over the file and over one whose syncs wait a millisecond first, with the syncs that each takes; by
# turns with another program, where one is given. It needs a C compiler, $CC or cc.
# Where SHORTER names a number, the logs are so many times shorter than they are named: for a trial of this script.
# usage: bench/serve.sh [PROGRAM [FOLDER [OTHER PROGRAM]]]
set -euo pipefail
here=$(cd "$(dirname "$0")/.." && pwd)
program=$(realpath -m "${1:-$here/bin/resetd}")
folder=${2:-/var/tmp}
other=${3:+other=$(realpath -m "$3")}
[ -x "$program" ] || { echo 'there is no proved program yet: make build makes it' >&2; exit 1; }
system=$(df --output=fstype "$folder" | tail -n 1)
[ "$system" != tmpfs ] || { echo "$folder is in memory: give a folder of a real file system" >&2; exit 1; }
scratch=$(mktemp -d -p "$folder" resetd-serve-XXXXXX)
trap 'rm -rf "$scratch" "${swift:-}"' EXIT
swift=$(mktemp -d -p /dev/shm resetd-serve-XXXXXX 2> /dev/null || mktemp -d -p "$scratch")

echo "files in $folder, on $system"
python3 -B "$here/bench/serve/measure.py" "$program" "$scratch" "$swift" "${SHORTER:-1}"

"${CC:-cc}" -O2 -shared -fPIC -x c -o "$scratch/syncs.so" "$here/bench/serve/syncs.c.txt"
python3 -B "$here/bench/serve/wave.py" "$program" "$scratch" "$scratch/syncs.so"
python3 -B "$here/bench/serve/together.py" "$scratch" "$scratch/syncs.so" "program=$program" $other
