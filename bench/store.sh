#!/usr/bin/env bash
# How long the store takes to commit 256 steps, as a multiple of judging and applying them, and to open
# a device of which a half of 4, 8 or 16 MiB is full, as bytes per second and as a multiple of a plain
# read of as many bytes, and to migrate a full store: all over a disk in memory, in one run. The program
# of bench/store is proved and built in a scratch repository over copies of the crates with what rt keeps
# in their out/, and runs ROUNDS times; the least time of each part counts. Once more it runs with a
# counter of the heap that is loaded ahead of the C library (heap.c.txt, which needs a C compiler, $CC or
# cc): how much memory a migration over a file takes at once. Its files end in .txt, since CI
# refuses a source file that belongs to no crate.
set -euo pipefail
rounds=${1:-5}
here=$(cd "$(dirname "$0")/.." && pwd)
scratch=$(mktemp -d)
trap 'rm -rf "$scratch"' EXIT

program=$("$here/bench/program" store "${BUILT:-$scratch}/store")
for ((round = 0; round < rounds; round++)); do
  (cd "$scratch" && "$program")
done | awk '
  { part = $1 " " $2; steps[part] = $3; if (!(part in least) || $4 < least[part]) least[part] = $4 }
  END {
    judged = least["judged 0"] / steps["judged 0"]; committed = least["committed 0"] / steps["committed 0"]
    printf "256 steps judged and applied %9.0f ns\n", 256 * judged
    printf "256 steps committed          %9.0f ns, %.2f times that\n", 256 * committed, committed / judged
    for (part in least) if (part ~ /^migrated/) {
      split(part, fields)
      printf "migrated a world of %d bytes %9.0f ns\n", fields[2], least[part]
    }
    for (part in least) if (part ~ /^opened/) {
      split(part, fields); bytes = fields[2]; read = least["read " bytes]
      printf "opened %9d bytes, %7d steps %9.0f ms, %6.2f MB/s, %7.0f steps/s, %6.0f reads\n", bytes, steps[part], least[part] / 1e6, 1e3 * bytes / least[part], 1e9 * steps[part] / least[part], least[part] / read | "sort -k2n"
    }
  }'

"${CC:-cc}" -O2 -shared -fPIC -x c -o "$scratch/heap.so" "$here/bench/store/heap.c.txt"
(cd "$scratch" && LD_PRELOAD=$scratch/heap.so "$program") | awk '
  $1 == "heap" { used[part] = $2; most[part] = $3; next }
  { part = $1; bytes[part] = $2 }
  END {
    world = used["held_with_a_world"] - used["held_before"]; rows = used["held_with_rows"] - used["held_before"]
    snapshot = bytes["held_with_a_snapshot"]; more = most["held_migrated"] - used["held_again"]
    bound = world + rows + 2 * snapshot
    printf "migrated with %d bytes of memory more: %.2f times the %d of a world (%d), its rows (%d) and twice the snapshot (%d)\n", more, more / bound, bound, world, rows, snapshot
  }'
