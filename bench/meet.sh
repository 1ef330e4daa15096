#!/usr/bin/env bash
# bench/meet.sh [N]: runs mails by threads N times (100 without it), one after the other. Each time six threads of `work` are held at the
# gate until all six have come, and the calls of crates/test_plays/data/works.rows are made, by 1 to 16 threads. Prints how many runs went
# well, and how long they took. Exit status 1 if one didn't. The program is the one that `rt run` leaves in crates/test_plays/out, or
# $PLAYS.
set -eu
count=${1:-100}
top=$(cd "$(dirname "$0")/.." && pwd)
program=$(realpath "${PLAYS:-$top/crates/test_plays/out/test_plays}")
work=$(mktemp -d)
trap 'rm -rf "$work"' EXIT
mkdir "$work/rows"
cp "$top/crates/test_plays/data/works.rows" "$work/rows"
cd "$work/rows"
begun=$(date +%s%N)
well=0
for ((k = 0; k < count; k++)); do
  "$program" > "$work/told" 2>&1 || true
  if grep -q '^meeting ok$' "$work/told" && grep -q '^works: ' "$work/told" && ! grep -q 'otherwise' "$work/told"; then
    well=$((well + 1))
  else
    cat "$work/told"
  fi
done
echo "$well of $count runs went well, in $(((($(date +%s%N) - begun)) / 1000000)) milliseconds"
[ "$well" = "$count" ]
