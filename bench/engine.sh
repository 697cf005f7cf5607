#!/usr/bin/env bash
# How many steps a second callers of one engine get settled, with how many syncs each and how long each
# takes, with 1, 4, 16 and 64 callers, over a file and over one whose syncs wait a millisecond; and how
# many flights and syncs one wave over a ring of 64 nodes with chords takes. Each is printed beside as
# many raw pairs of a write and a sync in the same run. The program of bench/engine is
# proved and built in a scratch repository over copies of the crates with what rt keeps in their out/,
# and runs ROUNDS times, with its files in the folder FOLDER; of several runs each is printed. Its files end
# in .txt, since CI refuses a source file that belongs to no crate.
set -euo pipefail
rounds=${1:-1}
here=$(cd "$(dirname "$0")/.." && pwd)
scratch=$(mktemp -d ${2:+-p "$2"})
trap 'rm -rf "$scratch"' EXIT

program=$("$here/bench/program" engine "${BUILT:-$scratch}/engine")
for ((round = 0; round < rounds; round++)); do
  (cd "$scratch" && "$program")
done | awk '
  $1 == "callers" {
    printf "%-4s %2d callers: %7.0f steps/s, %.3f syncs a step, p50 %8.1f us, p99 %8.1f us; %5d syncs in %7.1f ms, %.2f times as many raw pairs\n",
      $2, $3, 1e9 * $4 / $6, $5 / $4, $7 / 1e3, $8 / 1e3, $5, $6 / 1e6, $6 / $9
  }
  $1 == "wave" {
    printf "%-4s a wave over %d nodes: %d steps, %d syncs, %d flights, in %.1f ms, %.2f times as many raw pairs\n",
      $2, $3, $4, $5, $5 / 2, $6 / 1e6, $6 / $9
  }'
