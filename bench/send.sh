#!/usr/bin/env bash
# bench/send.sh [short]: the sender over real processes and a fresh directory. A message to a local and a remote recipient, by
# `send DIR cat --turns 100000` until nothing is left; each exit status but 51; two senders at once; a sender that is killed
# while a remote program runs, and one whose cleaner was stopped with a command in its pipe; a cleaner by hand beside a sender; a
# turn that can't be made; the last turns; what rests cost. Exit status 1 if something differs. With `short` the first message alone, by
# `--turns 2000`. Ends by itself within five minutes, `short` within one. In Debian: the package procps.
set -u
top=$(cd "$(dirname "$0")/.." && pwd)
program=${QMAIL:-$top/qmail}
program=$(realpath "$program")
work=$(mktemp -d)
senders=
stopped=
newline=$'\n'
trap 'kill -CONT $stopped 2> /dev/null; kill $senders 2> /dev/null; wait; rm -rf "$work"' EXIT
cd "$work" || exit 1
. "$top/bench/check.sh"

queue() { timeout 60 "$program" "$@"; }

mail() { # DIR SENDER RECIPIENT..: queues a message
  local dir=$1 sender=$2
  shift 2
  { printf 'F%s\0' "$sender"; printf 'T%s\0' "$@"; printf '\0'; } > envelope
  printf 'Subject: hello\n\nhello\n' | queue queue envelope "$dir"
}

make_queue() { # DIR: a queue with the user u, whose mail goes to a maildir
  queue clean "$1" < /dev/null > empty
  mkdir -p "$1/home/u/Maildir/tmp" "$1/home/u/Maildir/new" "$1/home/u/Maildir/cur"
  printf '+u:u:1000:1000:home/u:-::\n.\n' > "$1/users/assign"
  printf './Maildir/\n' > "$1/home/u/.qmail-default"
}

send_all() { # DIR PROGRAM TURNS [LEFT]: senders until nothing is left but what this line of an audit tells
  for k in $(seq 40); do
    queue send "$1" "$2" --turns "$3" 2>> "$1.log" || return 1
    [ "$(queue audit "$1")" = "pid 0${4:+$newline$4}" ] && return 0
  done
  return 1
}

# LOG: the number that this sender has delivered and whose removal its cleaner didn't answer, as an audit tells it of S2: `info/N` is
# gone by then, and who looks for what is left does so after 36 hours
unremoved() {
  awk '/^starting delivery/ { number[$3] = $5; left[$5]++ }
    /^delivery [0-9]*: success/ { left[number[$2]]-- }
    /^end msg/ { delete left[$3] }
    END { for (n in left) if (left[n] == 0) print n " S2" }' "$1"
}

# --foreground: in a process group of its own a cleaner that is stopped gets SIGHUP once that group is orphaned (setpgid(2)), and ends
begin() { # DIR PROGRAM LOG: a sender in the background, whose process number is $sender
  QMAIL_IDLE_MS=100 timeout --foreground -s KILL 120 "$program" send "$1" "$2" --turns 1000000 2> "$3" &
  timer=$!
  senders="$senders $timer"
  await "the sender of $1" child_of "$timer" send
  sender=$(child_of "$timer" send)
}

child_of() { pgrep -P "$1" -f "^[^ ]+ $2 "; } # PID WORD: the child of a process that runs this command

await() { # WHAT COMMAND..: until the command succeeds, at most 20 seconds
  local what=$1
  shift
  for k in $(seq 200); do
    "$@" > noise 2>&1 && return 0
    sleep 0.1
  done
  echo "differs: waited in vain for $what"
  bad=1
  return 1
}

is_empty() { [ "$(queue audit "$1")" = "pid 0" ]; }

# PID: kills a sender, and waits until the last of its threads is gone, and its lock with it
end_at_once() {
  kill -9 "$1"
  await "the end of a sender that was killed" is_gone "$1"
}

is_gone() {
  [ -z "$(ls "/proc/$1/task" 2> noise | grep -vx "$1")" ] && ! grep -q '^State:.[^Z]' "/proc/$1/status" 2> noise
}

end() { # the sender of `begin`, and with it its children
  kill "$sender" 2> noise
  wait "$timer" 2> noise
}

# the first message
turns=100000
[ "${1:-}" = short ] && turns=2000
make_queue q
mail q u1@localhost u2@localhost b@y
check "a message is queued" "$?" 0
send_all q cat "$turns"
check "it is sent, and nothing is left" "$?" 0
check "the local recipient has it" "$(grep -lq '^Delivered-To: u2@localhost$' q/home/u/Maildir/new/* && echo so)" so
bounces=$(grep -l '^Delivered-To: u1@localhost$' q/home/u/Maildir/new/*)
check "a bounce names the remote one" "$(grep -lq '^<b@y>:$' $bounces && echo so)" so
check "the log's first line" "$(head -n 1 q.log | sed 's/[0-9][0-9]*/N/')" "new msg N"
check "and its last one" "$(tail -n 1 q.log | sed 's/[0-9][0-9]*/N/')" "end msg N"
if [ "${1:-}" = short ]; then
  [ "$bad" = 0 ] && echo "all as it should be"
  exit "$bad"
fi

# statuses
queue send q cat 2> err
check "no turns" "$? $(cat err)" "100 usage"
QMAIL_IDLE_MS=60001 queue send q cat --turns 1 2> err
check "a rest that is too long" "$? $(cat err)" "100 QMAIL_IDLE_MS is not a number from 0 to 60000"
QMAIL_IDLE_MS=1s queue clean q < /dev/null
check "is told no cleaner" "$?" 0
queue send q cat --turns 1 2> err
check "one turn" "$? $(cat err)" "0 "
echo abc > q/control/queuelifetime
queue send q cat --turns 1 2> err
check "a bad control file" "$? $(cat err)" "85 "
rm q/control/queuelifetime
make_queue r
rmdir r/info/7
: > r/info/7
queue send r cat --turns 1 2> err
check "a directory that is missing" "$?" 84
queue send --turns 1 -- q -cat 2> err
check "a program that is no word for its spawner" "$? $(cat err)" "83 usage"
mail q u1@localhost u2@localhost
queue send q cat --turns 1000 2> /dev/full
check "a log that can't be written" "$?" 53
begin q cat log
await "a cleaner" child_of "$sender" clean
kill "$(child_of "$sender" clean)"
mail q u1@localhost u2@localhost
wait "$timer"
check "a cleaner that is gone" "$?" 81
left=$(queue audit q | grep ' S2$')
check "it left at most what it was to remove" "$(echo "$left" | grep -vxF "$(unremoved log)")" ""
begin q cat log
await "a local spawner" child_of "$sender" lspawn
kill "$(child_of "$sender" lspawn)"
wait "$timer"
check "a local spawner that is gone" "$?" 82
send_all q cat 2000 "$left"
sent=$?
copies=$(grep -l '^Delivered-To: u2@localhost$' q/home/u/Maildir/new/* | wc -l)
check "and nothing is lost" "$sent $([ "$copies" -ge 3 ] && echo three)" "0 three"

# a cleaner that is killed while a delivery runs: `info/N` is gone when nobody is there who would remove `mess/N`
make_queue killed
echo '|sleep 2' > killed/home/u/.qmail-slow
mail killed a@x uslow@localhost
begin killed cat log
await "a delivery" grep -q '^starting delivery' log
kill -9 "$(child_of "$sender" clean)"
wait "$timer"
check "a cleaner that is killed before it removes a message" "$?" 81
left=$(unremoved log)
check "leaves its file" "$(queue audit killed)" "pid 0$newline${left:-none}"
send_all killed cat 200 "$left"
check "which stays" "$?" 0
find killed/mess -type f -exec touch -d '37 hours ago' {} +
send_all killed cat 200
check "for 36 hours" "$?" 0

# a turn that can't be made: one line of the log for each, and it rests after them
printf 'u0\0' > q/todo/1
begin q cat log
sleep 3
check "a turn that can't be made rests" "$(grep -vc '^alert: left 1$' log) $([ "$(wc -l < log)" -le 40 ] && echo few)" "0 few"
end
rm q/todo/1

# two at once
make_queue two
printf '#!/bin/sh\necho "$3" >> %s/got\nprintf "r\\0Kok\\0"\n' "$work" > take
chmod +x take
mail two a@x r{1..20}@y
for k in 1 2; do { QMAIL_IDLE_MS=1 queue send two ./take --turns 2000 2> "log$k"; echo "$?" > "status$k"; } & done
wait
check "of two at once one ends" "$(cat status1 status2 | sort | tr '\n' ' ')" "0 84 "
check "and says why" "$(cat log1 log2 | grep another)" "send: another sender has lock/send"
send_all two ./take 2000
check "each recipient has one delivery" "$(sort got | uniq -c | awk '$1 == 1' | wc -l) $(wc -l < got)" "20 20"

# a sender that is killed while a remote program runs
make_queue slow
cat > slowly <<END
#!/bin/sh
[ -e $work/begun ] && [ ! -e $work/ended ] && : > $work/both
: > $work/begun
sleep 3
: > $work/ended
printf 'r\\0Kok\\0'
END
chmod +x slowly
mail slow a@x r@y
begin slow ./slowly log
await "the program" test -e begun
end_at_once "$sender"
begin slow ./slowly log2
await "the second generation" is_empty slow
check "no second one beside a killed one" "$(ls both 2> noise)$(grep -c '^send: waiting for lock/rspawn$' log2)" 1
end

# its last turns
make_queue last
mail last a@x r@y
queue send last ./slowly --turns 50 2> log
check "its last turns wait for what is in flight" "$? $(queue audit last)" "0 pid 0"

# one whose cleaner was stopped, with a command in its pipe
make_queue halted
begin halted ./take log
await "a cleaner" child_of "$sender" clean
stopped=$(child_of "$sender" clean)
kill -STOP "$stopped"
: > got
mail halted a@x r@y
n=$(basename "$(ls halted/todo/*)")
await "the message's files" test -e "halted/info/$((n % 23))/$n"
sleep 1
end_at_once "$sender"
begin halted ./take log2
sleep 2
check "it waits for a stopped cleaner" "$(cat log2)" "send: waiting for lock/clean"
kill -CONT "$stopped"
stopped=
await "the second generation" is_empty halted
check "and then delivers, once" "$(cat got)" "r@y"

# a cleaner by hand beside it
timeout 2 "$program" clean halted < /dev/null 2> err
check "a cleaner by hand waits" "$? $(cat err)" "124 clean: waiting for lock/clean"
end

# what rests cost
processors() { for p in "$1" $(pgrep -P "$1"); do awk '{ print $14 + $15 }' "/proc/$p/stat"; done | awk '{ all += $1 } END { print all }'; }
QMAIL_IDLE_MS=1000 timeout --foreground -s KILL 120 "$program" send halted ./take --turns 1000000 2> log &
timer=$!
senders="$senders $timer"
await "the sender" child_of "$timer" send
sender=$(child_of "$timer" send)
sleep 3
before=$(processors "$sender")
sleep 20
after=$(processors "$sender")
ticks=$((20 * $(getconf CLK_TCK)))
echo "a second's rests: $((after - before)) ticks of $ticks"
check "an idle sender takes under 0.5 percent of a processor" "$([ $(((after - before) * 200)) -lt "$ticks" ] && echo under)" under
end
begun=$(date +%s)
queue send halted ./take --turns 100000 2> err
check "100,000 idle turns" "$?" 0
spent=$(($(date +%s) - begun))
echo "100,000 idle turns: $spent s"
check "take at most half a minute" "$([ "$spent" -le 30 ] && echo so)" so
[ "$bad" = 0 ] && echo "all as it should be"
exit "$bad"
