#!/usr/bin/env bash
# bench/crowd.sh: eight shells inject 1,000 messages at once into one fresh directory, 125 each, one process of ./qmail a
# message. Checks that each injection ended with 0, that 1,000 different numbers are left, all in S4, that pid/ is empty,
# and that each of the 1,000 messages and of their envelopes is there once. Exit status 1 if not.
set -eu
shells=8
each=125
top=$(cd "$(dirname "$0")/.." && pwd)
program=${QMAIL:-$top/qmail}
work=$(mktemp -d)
trap 'rm -rf "$work"' EXIT
queue=$work/queue

inject() { # SHELL: its messages, one after the other; its failures go to a file
  local k
  for ((k = 1; k <= each; k++)); do
    printf 'Fs%d@example.org\0Tr%d.%d@example.org\0\0' "$1" "$1" "$k" > "$work/envelope.$1"
    printf 'Subject: %d.%d\n\nhello\n' "$1" "$k" | "$program" queue "$work/envelope.$1" "$queue" \
      || echo "message $1.$k: status $?"
  done > "$work/failed.$1"
}

begun=$(date +%s.%N)
pids=()
for ((s = 1; s <= shells; s++)); do
  inject "$s" &
  pids+=($!)
done
wait "${pids[@]}"
ended=$(date +%s.%N)

bad=0
say() { # WHAT WANTED FOUND
  if [ "$2" = "$3" ]; then echo "$1: $3"; else echo "$1: $3, and not $2"; bad=1; fi
}
wanted=$((shells * each))
say "injections that failed" 0 "$(cat "$work"/failed.* | wc -l)"
"$top/bench/states.sh" "$queue" > "$work/states" || bad=1
grep '^wrong' "$work/states" || true
say "names in pid/" "pid 0" "$(grep '^pid' "$work/states")"
say "numbers in S4" "$wanted" "$(grep -c ' S4$' "$work/states")"
say "numbers in another state" 0 "$(grep -vc -e ' S4$' -e '^pid' "$work/states" || true)"
say "different messages" "$wanted" "$(find "$queue/mess" -type f -exec grep -h '^Subject: ' {} + | sort -u | wc -l)"
say "different recipients" "$wanted" "$(find "$queue/todo" -type f -exec cat {} + | tr '\0' '\n' | grep '^Tr' | sort -u | wc -l)"
awk -v n="$wanted" -v b="$begun" -v e="$ended" 'BEGIN { printf "%d injections by 8 shells at once: %.1f seconds, %.0f a second\n", n, e - b, n / (e - b) }'
exit "$bad"
