#!/usr/bin/env bash
# bench/known.sh: builds the program of test_sender, and has a sender over a table of answers learn 10,000, 20,000, 40,000 and
# 100,000 messages at its start, each with one remote recipient. Prints the processor time of each, and the ratio to 10,000, what
# a turn takes with 1,000 and with 100,000 known messages, by how much the program is larger for each of the 100,000 than with
# one, and how long 10,000 take until all are removed, two turns for each. PROGRAM names a program that is built already.
# Exit status 1 if not all are removed.
set -eu
top=$(cd "$(dirname "$0")/.." && pwd)
work=$(mktemp -d)
trap 'rm -rf "$work"' EXIT
program=${PROGRAM:-$top/crates/test_sender/out/test_sender}
if [ -z "${PROGRAM:-}" ]; then
  (cd "$top/crates/test_sender" && rt run -- 1 > /dev/null)
fi
cd "$work"

TIMEFORMAT='%3U %3S'

seconds() { # MESSAGES TURNS: the least processor time of five runs; the greatest resident set goes to a file
  for _ in 1 2 3 4 5; do
    { time /usr/bin/time -f '%M' -a -o "size.$1.$2" "$program" "$1" "$2" > "out.$1.$2"; } 2>> "time.$1.$2"
  done
  awk 'NR == 1 || $1 + $2 < least { least = $1 + $2 } END { printf "%.3f\n", least }' "time.$1.$2"
}

size() { # MESSAGES TURNS: the greatest resident set, in KB
  sort -n "size.$1.$2" | tail -1
}

other=$(seconds 1 1)
for count in 10000 1000 20000 40000 100000; do
  learned=$(seconds "$count" 1)
  [ "$count" != 10000 ] || first=$learned
  eval "learned_$count=$learned"
  awk -v n="$count" -v t="$learned" -v o="$other" -v f="$first" 'BEGIN {
    printf "%d learned: %.3f s, %.2f times 10,000\n", n, t - o, (t - o) / (f - o) }'
done
for count in 1000 100000; do
  turns=$((count < 20000 ? count : 20000))
  eval "before=\$learned_$count"
  after=$(seconds "$count" "$((turns + 1))")
  awk -v n="$count" -v a="$after" -v b="$before" -v k="$turns" 'BEGIN { printf "a turn with %d known: %.1f microseconds\n", n, (a - b) * 1e6 / k }'
done
awk -v a="$(size 100000 1)" -v b="$(size 1 1)" 'BEGIN { printf "bytes of a known message: %d\n", (a - b) * 1024 / 99999 }'
all=$(seconds 10000 20002)
grep '^crowd: 10000 of 10000 messages removed' out.10000.20002
awk -v a="$all" -v o="$other" 'BEGIN { printf "10,000 until all are removed: %.2f s\n", a - o }'
