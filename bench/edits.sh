#!/usr/bin/env bash
# bench/edits.sh [NAME..]: tries the wrong bodies that the gate no longer tries, the files must-fail/*.md of the crates NAME..
# (without a name of each crate that has some). In a copy of the tree they become must-fail edits again, and `rt must-fail`
# says what refused each. Exit status 1 if one is still proved or can't be tried, or if a crate has none. docs/PLANTED.md
# has the date on which each was last tried.
set -eu
top=$(cd "$(dirname "$0")/.." && pwd)
work=$(mktemp -d)
trap 'rm -rf "$work"' EXIT
cd "$top"
if [ $# = 0 ]; then
  set -- $(ls crates/*/must-fail/*.md | cut -d/ -f2 | uniq)
fi
mkdir "$work/copy"
tar -c --no-wildcards-match-slash --exclude='crates/*/out' crates crates.txt HANDLES | tar -x -C "$work/copy"
cd "$work/copy"
rm -f crates/*/must-fail/*.edit
count=0
for name in "$@"; do
  before=$count
  for text in "crates/$name/must-fail"/*.md; do
    if [ ! -f "$text" ]; then continue; fi
    mv "$text" "${text%.md}.edit"
    count=$((count + 1))
  done
  if [ "$count" = "$before" ]; then
    echo "edits.sh: $name has no must-fail/*.md" >&2
    exit 1
  fi
done
status=0
rt must-fail "$@" > "$work/told" 2>&1 || status=1
cat "$work/told"
printf '%d of %d refused\n' "$(grep -c 'must-fail .*: refused, as it must be' "$work/told")" "$count"
exit $status
