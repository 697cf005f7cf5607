#!/usr/bin/env bash
# How long a ledger takes for a step in batches of 256 over a disk in memory: to submit it, and its share
# of a flight that begins, is committed and ends; each also as a multiple of the step judged and applied
# alone, in the same run; in worlds of 4, 16 and 64 nodes, of which all but one are linked in a ring with
# chords, and the last is reset again and again. The program of bench/ledger is proved and built in a
# scratch repository over copies of the crates with the libraries that rt keeps in their out/, and runs
# ROUNDS times; the least time of each part counts. Its files end in .txt, since CI refuses a source file that
# belongs to no crate.
set -euo pipefail
rounds=${1:-5}
here=$(cd "$(dirname "$0")/.." && pwd)
scratch=$(mktemp -d)
trap 'rm -rf "$scratch"' EXIT

program=$("$here/bench/program" ledger "${BUILT:-$scratch}/ledger")
for ((round = 0; round < rounds; round++)); do
  "$program"
done | awk '
  { part = $1 " " $2; ns = $4 / $3; if (!(part in least) || ns < least[part]) least[part] = ns }
  END {
    for (part in least) {
      split(part, fields); alone = least["judged " fields[2]]
      if (fields[1] == "judged") rank = 0; if (fields[1] == "submitted") rank = 1; if (fields[1] == "begun") rank = 2
      if (fields[1] == "committed") rank = 3; if (fields[1] == "ended") rank = 4
      printf "%d %d %2d nodes, %-9s %7.1f ns a step, %5.2f times judged\n", fields[2], rank, fields[2], fields[1], least[part], least[part] / alone
    }
  }' | sort -k1,1n -k2,2n | cut -d' ' -f3-
