#!/usr/bin/env bash
# bench/clean.sh [N]: fills a fresh queue by N injections (60 without it), each of which is killed (kill -9) at a random
# moment, unless it is done by then. Then has `qmail clean` remove each number that didn't come as far as todo, and checks
# that `qmail audit` shows just those gone; that 100,000 random bytes are answered one byte for each NUL and remove nothing;
# that a name in pid/ that was last read three days ago goes and a new one stays; and the exit statuses of an output that
# can't be written and an input that can't be read. Exit status 1 if not.
set -eu
count=${1:-60}
top=$(cd "$(dirname "$0")/.." && pwd)
program=${QMAIL:-$top/qmail}
work=$(mktemp -d)
trap 'rm -rf "$work"' EXIT
queue=$work/queue
. "$top/bench/check.sh"

states() { # STATE ..: the lines of the numbers in these states
  "$program" audit "$queue" | grep -E "^[1-9][0-9]* ($(IFS='|' && echo "$*"))$" || true
}

names() { # what is in the queue, pid/ left out
  find "$queue" -type f ! -path "$queue/pid/*" | sort
}

mkfifo "$work/never"
printf 'Fs@example.org\0Tr@example.org\0\0' > "$work/envelope"
head -c 3000000 /dev/zero | tr '\0' x > "$work/message"
for ((k = 0; k < count; k++)); do
  "$program" queue "$work/envelope" "$queue" < "$work/message" &
  pid=$!
  read -rt "0.0$((RANDOM % 3))$((RANDOM % 10))" <> "$work/never" || true # waits without a process of its own
  kill -9 "$pid" 2> "$work/noise" || true
  wait "$pid" 2> "$work/noise" || true
done

states S2 S3 > "$work/unfinished"
states S4 > "$work/kept"
awk '{ printf "foop/%s%c", $1, 0 }' "$work/unfinished" > "$work/commands"
"$program" clean "$queue" < "$work/commands" > "$work/answers"
unfinished=$(wc -l < "$work/unfinished")
check "each of $unfinished commands is answered +" "$(cat "$work/answers")" "$(printf '%*s' "$unfinished" '' | tr ' ' +)"
check "their numbers are gone" "$(states S2 S3)" ""
check "those in todo stay, $(wc -l < "$work/kept") numbers" "$(states S4)" "$(cat "$work/kept")"

names > "$work/before"
head -c 100000 /dev/urandom > "$work/random"
status=0
"$program" clean "$queue" < "$work/random" > "$work/answers" || status=$?
check "random bytes: status" "$status" 0
check "random bytes: answers" "$(wc -c < "$work/answers")" "$(tr -dc '\0' < "$work/random" | wc -c)"
check "random bytes: names" "$(names)" "$(cat "$work/before")"

touch -d '3 days ago' "$queue/pid/1.1.1"
touch "$queue/pid/2.2.2"
check "a number that isn't there" "$(printf 'foop/1\0' | "$program" clean "$queue")" +
check "an old name in pid/" "$(cd "$queue/pid" && echo 1.1.* 2.2.*)" "1.1.* 2.2.2"

status=0
printf 'foop/1\0' | "$program" clean "$queue" > /dev/full || status=$?
check "an output that can't be written" "$status" 53
status=0
"$program" clean "$queue" < / > "$work/answers" || status=$?
check "an input that can't be read" "$status" 54
exit "$bad"
