#!/usr/bin/env bash
# How long a step of a wave takes, and copying, writing, reading and checking of worlds and batches, in
# both versions: one program that neither parses nor prints while its clock runs, and of several rounds
# the least counts. The bytes of memory that a message, a step and a lane take follow. The program of
# bench/measures is proved and built in a scratch repository over copies of the crates with what rt keeps
# in their out/, and runs ROUNDS times. Its files end in .txt, since CI refuses a source file that belongs
# to no crate. If YARDSTICK names a folder with a program yardstick.rs that prints lines 'NAME NANOSECONDS',
# that one is built by rustc, runs in between, and its least times follow.
set -euo pipefail
rounds=${1:-5}
here=$(cd "$(dirname "$0")/.." && pwd)
scratch=$(mktemp -d)
trap 'rm -rf "$scratch"' EXIT

program=$("$here/bench/program" measures "${BUILT:-$scratch}/measures")
if [ -n "${YARDSTICK:-}" ]; then
  rustc --edition 2021 -O -C target-cpu=native -o "$scratch/yardstick" "$YARDSTICK/yardstick.rs" 2> "$scratch/yardstick.txt"
fi
for ((round = 0; round < rounds; round++)); do
  "$program" >> "$scratch/ours.txt"
  [ -z "${YARDSTICK:-}" ] || "$scratch/yardstick" >> "$scratch/theirs.txt"
done
awk '$2 == 0 { size[$1] = $3; next }
  { if (!($1 in seen)) { order[++parts] = $1; seen[$1] = 1 } part = $1 " " $2; if (!(part in least) || $3 < least[part]) least[part] = $3 }
  END {
    printf "%-24s %13s %13s\n", "", "version 1", "version 2"
    for (i = 1; i <= parts; i++) printf "%-24s %10.0f ns %10.0f ns\n", order[i], least[order[i] " 1"], least[order[i] " 2"]
    for (name in size) printf "%-24s %7d bytes\n", name, size[name] | "sort"
  }' "$scratch/ours.txt"
least='{ if (!($1 in least)) order[++parts] = $1; if (!($1 in least) || $2 < least[$1]) least[$1] = $2 }
  END { for (i = 1; i <= parts; i++) printf "%-24s %10.0f ns\n", order[i], least[order[i]] }'
[ -z "${YARDSTICK:-}" ] || { echo 'the yardstick:'; grep '_ns' "$scratch/theirs.txt" | awk "$least"; }
