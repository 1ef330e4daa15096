#!/usr/bin/env bash
# bench/users.sh [N]: builds the program of test_spawn, and has it read users/assign files of N lines (200,000 without it) and
# of twice as many, and look for 101 local parts in each, three times. Prints the least time of each. Exit status 1 if a line
# isn't found, or if the second file takes over three times as long as the first: then the time grows with the square of the
# lines.
set -eu
count=${1:-200000}
top=$(cd "$(dirname "$0")/.." && pwd)
work=$(mktemp -d)
trap 'rm -rf "$work"' EXIT
(cd "$top/crates/test_spawn" && rt run -- 1 > /dev/null)

least() { # N: the least seconds of three runs
  for _ in 1 2 3; do
    /usr/bin/time -f %e -a -o "$work/$1" "$top/crates/test_spawn/out/test_spawn" "$1" > "$work/out"
    grep -q "^users: $1 lines read, and the last one found$" "$work/out" || { cat "$work/out"; exit 1; }
  done
  sort -n "$work/$1" | head -n 1
}

first=$(least "$count")
second=$(least "$((2 * count))")
echo "seconds: $first for $count lines, $second for $((2 * count))"
awk -v first="$first" -v second="$second" 'BEGIN { exit second > 3 * first }'
