#!/usr/bin/env bash
# bench/idle.sh [N]: a queue of N messages (10,000) whose one recipient is deferred. A new sender over it: how long until its first
# line, how long until it has tried all, its memory, and what it and its children take of a processor in 20 seconds after that. Exit
# status 1 if the first is over 5 seconds or the last over 1 percent. The program is ./qmail, or $QMAIL: one with proofs, since
# others are slower. In Debian: the package procps.
set -u
count=${1:-10000}
top=$(cd "$(dirname "$0")/.." && pwd)
program=$(realpath "${QMAIL:-$top/qmail}")
work=$(mktemp -d)
sender=
trap 'kill $sender 2> /dev/null; wait; rm -rf "$work"' EXIT
cd "$work" || exit 1
. "$top/bench/check.sh"

inject() { # FROM: a fourth of the messages
  local k
  for ((k = $1; k <= count; k += 4)); do
    printf 'Subject: hello\n\nhello\n' | "$program" queue envelope queue || echo "an injection failed"
  done
}

seconds() { awk -v from="$begun" -v to="$(date +%s.%N)" 'BEGIN { printf "%.1f", to - from }'; }

ticks() { for pid in "$sender" $(pgrep -P "$sender"); do awk '{ print $14 + $15 }' "/proc/$pid/stat"; done | awk '{ all += $1 } END { print all }'; }

until_lines() { # N: of reports, at most half an hour
  for _ in $(seq 18000); do
    [ "$(grep -c "$2" log)" -ge "$1" ] && return
    sleep 0.1
  done
}

printf '#!/bin/sh\nprintf "slater\\0Zlater\\0"\n' > program
chmod +x program
printf 'Fs@x\0Tr@y\0\0' > envelope
"$program" clean queue < /dev/null > noise
echo 120 > queue/control/concurrencyremote
for k in 1 2 3 4; do inject "$k" & done
wait
check "messages in the queue" "$("$program" audit queue | grep -c S4)" "$count"
start() {
  : > log
  begun=$(date +%s.%N)
  QMAIL_IDLE_MS=1000 "$program" send queue "$work/program" --turns 1000000 2> log &
  sender=$!
}
start
until_lines "$count" '^delivery'
echo "all were preprocessed and tried in $(seconds) seconds"
kill "$sender"
wait "$sender" 2> noise
start
until_lines 1 '^starting'
first=$(seconds)
echo "a new sender's first line: after $first seconds"
check "it starts in under 5 seconds" "$(awk -v first="$first" 'BEGIN { print first < 5 }')" 1
until_lines "$count" '^delivery'
echo "all were tried again in $(seconds) seconds"
echo "its memory: $(awk '/^VmHWM/ { print $2, $3 }' "/proc/$sender/status")"
sleep 5
before=$(ticks)
sleep 20
spent=$(($(ticks) - before))
echo "while all wait: $spent ticks of $((20 * $(getconf CLK_TCK)))"
check "it takes under a percent of a processor" "$([ $((spent * 100)) -lt $((20 * $(getconf CLK_TCK))) ] && echo under)" under
check "and each message is still there" "$("$program" audit queue | grep -c S5)" "$count"
exit "$bad"
