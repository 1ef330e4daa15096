#!/usr/bin/env bash
# bench/play.sh N [settle]: plays a script of N mails, each run to its end, and one show, and prints the seconds that it took. With
# the word `settle` a generation delivers them all before the show.
# The program is ./qmail, which `make build` leaves.
set -eu
count=${1:?usage: bench/play.sh N [settle]}
top=$(cd "$(dirname "$0")/.." && pwd)
script=$(mktemp)
trap 'rm -f "$script"' EXIT
for ((k = 1; k <= count; k++)); do
  printf 'mail m%d s%d@h.example r%d@h.example : body %d%%0A\nrun m%d\n' "$k" "$k" "$k" "$k" "$k"
done > "$script"
if [ "${2:-}" = settle ]; then
  printf 'sender\nsettle K\n' >> "$script"
fi
echo show >> "$script"
begun=$(date +%s.%N)
lines=$("$top/qmail" play < "$script" | wc -l)
ended=$(date +%s.%N)
awk -v n="$count" -v l="$lines" -v b="$begun" -v e="$ended" 'BEGIN { printf "%d mails, %d lines shown, %.2f seconds\n", n, l, e - b }'
