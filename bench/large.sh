#!/usr/bin/env bash
# bench/large.sh MIB: injects a message of so many MiB (at most 1024) into a fresh directory by ./qmail, three times, and
# prints for each how long it took, how many MiB a second that is, and the most memory that the program had. Exit status 1
# if a message isn't queued, or isn't there whole after its first line.
set -eu
size=${1:?usage: bench/large.sh MIB}
top=$(cd "$(dirname "$0")/.." && pwd)
program=${QMAIL:-$top/qmail}
work=$(mktemp -d)
trap 'rm -rf "$work"' EXIT
printf 'Fs@example.org\0Tr@example.org\0\0' > "$work/envelope"
head -c "$((size * 1048576))" /dev/urandom > "$work/message"

for _ in 1 2 3; do
  queue=$work/queue
  /usr/bin/time -f '%e %M' -o "$work/took" "$program" queue "$work/envelope" "$queue" < "$work/message"
  awk -v size="$size" '{ printf "%.1f seconds, %.0f MiB a second, %.1f MB of memory\n", $1, size / $1, $2 / 1024 }' "$work/took"
  [ "$(ls "$queue/todo" | wc -l)" = 1 ]
  number=$(ls "$queue/todo")
  tail -n +2 "$queue/mess/$((number % 23))/$number" | cmp - "$work/message"
  rm -rf "$queue"
done
