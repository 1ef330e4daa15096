#!/usr/bin/env bash
# bench/yard.sh [N]: builds the program of test_yard, or takes $YARD for it, and has threads take N turns of a yard over one number
# (1,000,000 without it), together: none of them in a yard, then 1, 2, 4 and 8 threads. Prints how long a turn took, the least of three
# runs. A machine that does nothing else is wanted. Exit status 1 if a sum is wrong, if a turn that nobody waits for takes over 2
# microseconds more than one without a yard, or if one of four threads takes over 10.
set -eu
count=${1:-1000000}
top=$(cd "$(dirname "$0")/.." && pwd)
work=$(mktemp -d)
trap 'rm -rf "$work"' EXIT
program=${YARD:-$top/crates/test_yard/out/test_yard}
[ -n "${YARD:-}" ] || (cd "$top/crates/test_yard" && rt run > /dev/null)

least() { # THREADS: the least seconds of three runs
  local each=$((count / ($1 > 0 ? $1 : 1)))
  local sum=$((each * ($1 > 0 ? $1 : 1)))
  for _ in 1 2 3; do
    /usr/bin/time -f %e -a -o "$work/$1" "$program" "$1" "$each" > "$work/out"
    grep -q "^$1 threads, $each turns each: $sum$" "$work/out" || { cat "$work/out"; exit 1; }
  done
  sort -n "$work/$1" | head -n 1
}

for threads in 0 1 2 4 8; do
  printf '%s %s\n' "$threads" "$(least "$threads")" >> "$work/all"
done
awk -v n="$count" '
  { turn[$1] = $2 * 1000000 / n; printf "%d threads: %.2f microseconds a turn\n", $1, turn[$1] }
  END { exit turn[1] - turn[0] > 2 || turn[4] > 10 }' "$work/all"
