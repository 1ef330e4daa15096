#!/usr/bin/env bash
# bench/build.sh [--anew]: proves the program, and leaves it at ./qmail. That is `rt ci` in a copy of the tree with nothing but the
# crates that qmail_cli stands on: side by side, as the gate proves them. What the gate, or an earlier build, passed on this machine
# is taken from what the kit keeps by the sums of all that a proof reads; with --anew nothing is. No must-fail edit is tried, and
# none of these crates has tests. Exit status 1, and ./qmail is as it was, if a proof fails.
set -eu
cd "$(dirname "$0")/.."
work=$(mktemp -d)
trap 'rm -rf "$work"' EXIT
# rt ci runs at the top of a repository
mkdir "$work/.git"
# the lines of crates.txt from the highest down: a crate stands on those above its own line alone
tac crates.txt | awk -F '[: ]+' '
  BEGIN { wanted["qmail_cli"] }
  /^[a-z]/ && $1 in wanted { print; for (at = 2; at <= NF; at++) wanted[$at] }
' | tac > "$work/crates.txt"
sed 's,[: ].*,,; s,^,crates/,' "$work/crates.txt" |
  tar -c --no-wildcards-match-slash --exclude='crates/*/out' --exclude='crates/*/must-fail' -T - HANDLES | tar -x -C "$work"
(cd "$work" && rt ci "$@")
# a program that runs can't be written over
cp "$work/crates/qmail_cli/out/qmail_cli" "$work/qmail"
mv "$work/qmail" qmail
