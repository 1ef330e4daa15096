#!/usr/bin/env bash
# bench/kill.sh [N]: N injections (200 without it) in a fresh directory, eight at a time, each of which is killed (kill -9)
# at a random moment, unless it is done by then. If strace is there, then one more for each call of an injection, which
# is killed just as it makes that call. Checks that each number left is in S2, S3 or S4, that each message file has its
# inode number as its name, and that each process that ended with 0 has its message in S4, whole and with its recipient.
# Exit status 1 if not. A name in pid/ may be left too: of a process that was killed before it removed it. In Debian: the package
# strace.
set -eu
count=${1:-200}
top=$(cd "$(dirname "$0")/.." && pwd)
program=${QMAIL:-$top/qmail}
work=$(mktemp -d)
trap 'rm -rf "$work"' EXIT
queue=$work/queue
mkdir "$work/message" "$work/envelope"

write_mail() { # K: a message of 200,000 bytes that ends with its number, so that there is time to kill it
  printf 'Fs@example.org\0Tr%d@example.org\0\0' "$1" > "$work/envelope/$1"
  { head -c 200000 /dev/zero | tr '\0' x; printf '\nmessage %d\n' "$1"; } > "$work/message/$1"
}

inject() { # K [PROGRAM ..]: one injection
  "${@:2}" "$program" queue "$work/envelope/$1" "$queue" < "$work/message/$1"
}

for ((k = 0; k < 5; k++)); do write_mail "$k"; done
begun=$(date +%s%N)
for ((k = 0; k < 5; k++)); do
  inject "$k" || { echo "an injection that wasn't killed ended with $?"; exit 1; }
done
most=$((($(date +%s%N) - begun) / 5000)) # microseconds: as long as one takes
mkfifo "$work/never"

kill_one() { # K RANDOM: starts an injection, and kills it after some time; says what became of it
  local pid delay status=0
  write_mail "$1"
  printf -v delay '%d.%06d' 0 "$(($2 * most / 32768))"
  "$program" queue "$work/envelope/$1" "$queue" < "$work/message/$1" &
  pid=$!
  read -rt "$delay" <> "$work/never" || true # waits without a process of its own
  kill -9 "$pid" 2> /dev/null || true
  wait "$pid" 2> /dev/null || status=$?
  echo "$1 $status"
}

shells=8
pids=()
for ((s = 1; s <= shells; s++)); do
  for ((k = 10 + s; k < 10 + count + 1; k += shells)); do kill_one "$k" "$RANDOM"; done > "$work/ended.$s" 2> "$work/noise.$s" &
  pids+=($!)
done
wait "${pids[@]}"
cat "$work"/ended.* > "$work/ended"

kill_at() { # CALL WHEN: one more injection, which is killed as it makes that call for the so manieth time
  local k=$next status=0
  next=$((next + 1))
  write_mail "$k"
  # strace ends as the program does
  (inject "$k" strace -f -qq -o "$work/strace" -e "trace=$1" -e "inject=$1:signal=KILL:when=$2") 2> "$work/noise" || status=$?
  echo "$k $status" >> "$work/ended"
}

next=$((10 + count + 1))
if command -v strace > "$work/which"; then
  for at in link:1 fsync:1 unlink:1 fsync:2 fsync:3 link:2 fsync:4; do kill_at "${at%:*}" "${at#*:}"; done
  for ((w = 1; w <= 26; w++)); do kill_at write "$w"; done
fi

bad=0
"$top/bench/states.sh" "$queue" > "$work/states" || bad=1
grep '^wrong' "$work/states" || true
echo "injections: $(wc -l < "$work/ended") that were to be killed"
awk '$2 == 0 { done++ } $2 == 137 { killed++ } $2 != 0 && $2 != 137 { other++ }
  END { printf "of them ended with 0: %d, killed: %d, another status: %d\n", done, killed, other; exit other > 0 }' "$work/ended" || bad=1
awk '$1 == "pid" { pids = $2 } $2 ~ /^S/ { count[$2]++ }
  END { printf "names in pid/: %d, numbers in S2: %d, in S3: %d, in S4: %d\n", pids, count["S2"], count["S3"], count["S4"] }' "$work/states"

queued() { # K: whether its message is in S4, whole, with its recipient
  local todo number
  todo=$(grep -lF "Tr$1@example.org" "$queue"/todo/* || true)
  number=${todo##*/}
  [ -n "$number" ] && grep -qx "$number S4" "$work/states" \
    && tail -c "$(wc -c < "$work/message/$1")" "$queue/mess/$((number % 23))/$number" | cmp -s - "$work/message/$1"
}

lost=0
for k in 0 1 2 3 4 $(awk '$2 == 0 { print $1 }' "$work/ended"); do
  if ! queued "$k"; then echo "lost: message $k"; lost=$((lost + 1)); fi
done
echo "messages that were accepted and aren't in S4: $lost"
[ "$lost" = 0 ] || bad=1
exit "$bad"
