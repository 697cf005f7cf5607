#!/usr/bin/env bash
# Steps per second of the drill on a ring with chords: 64 nodes, each linked to the next and the
# next but one (128 links), through WAVES resets. A first run finds the steps: lanes are swept in
# order, and every front is taken and then cleared, until the wave is over. The second run, whose time
# is printed, has the lines of the first one that were steps, and its output goes to a file. Prints the
# steps taken, the seconds, and their ratio.
set -eu
waves=${1:-4}
sweeps=40
program=${2:-bin/resetd}
scratch=$(mktemp -d)
trap 'rm -rf "$scratch"' EXIT

awk -v waves="$waves" -v sweeps="$sweeps" 'BEGIN {
  n = 64
  for (i = 1; i <= n; i++) print "add", i, 1
  for (i = 1; i <= n; i++) for (d = 1; d <= 2; d++) {
    j = (i + d - 1) % n + 1
    print "join", i, j
    lane[++lanes] = i " " j
    lane[++lanes] = j " " i
  }
  for (w = 1; w <= waves; w++) {
    print "reset 1"
    for (s = 1; s <= sweeps; s++) for (l = 1; l <= lanes; l++) { print "take", lane[l]; print "clear", lane[l] }
  }
}' > "$scratch/swept"
"$program" drill < "$scratch/swept" > "$scratch/answers"

# Each line has one answer; the others that are printed are what a step gives out.
awk 'NR == FNR { if ($1 !~ /^(data|receipt|signal)$/) answer[++lines] = $1; next } answer[FNR] != "idle"' \
  "$scratch/answers" "$scratch/swept" > "$scratch/input"

begin=$(date +%s.%N)
"$program" drill < "$scratch/input" > "$scratch/output"
end=$(date +%s.%N)
steps=$(grep -c -E '^(done|started|finished|joined|taken|cleared) ' "$scratch/output")
signals=$(grep -c '^signal ' "$scratch/output" || true)
awk -v s="$steps" -v g="$signals" -v w="$waves" -v b="$begin" -v e="$end" 'BEGIN {
  printf "%d steps, %d signals of %d waves, %.2f s, %.0f steps/s\n", s, g, w, e - b, s / (e - b)
}'
