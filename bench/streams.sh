#!/usr/bin/env bash
# bench/streams.sh: what the built program writes to standard output and to standard error, and its exit status, for words
# that are no command, a word that isn't UTF-8, scripts, streams that fail, too little memory, and messages for a fresh
# directory. Exit status 1 if a row differs. The program is ./qmail, which `make build` leaves, or $QMAIL.
set -eu
top=$(cd "$(dirname "$0")/.." && pwd)
program=${QMAIL:-$top/qmail}
work=$(mktemp -d)
trap 'rm -rf "$work"' EXIT
queue=$work/queue
printf 'Fa@x\0Tb@y\0\0' > "$work/envelope"
printf 'X' > "$work/bad"
bad=0

row() { # STATUS OUT ERR INPUT [WORD ..]: runs the program with these words on the file INPUT
  local status=0 wanted=$1 out=$2 err=$3 input=$4
  shift 4
  "$program" "$@" < "$input" > "$work/out" 2> "$work/err" || status=$?
  say "$wanted" "$out" "$err" "$status" "$*"
}

say() { # WANTED OUT ERR STATUS WORDS: whether it ended so
  if [ "$4" = "$1" ] && printf "$2" | cmp -s - "$work/out" && printf "$3" | cmp -s - "$work/err"; then
    echo "ok: $5: status $4"
  else
    echo "differs: $5: status $4 and not $1, or other bytes on a stream"
    bad=1
  fi
}

# words that are no command
row 100 '' 'usage\n' /dev/null
row 100 '' 'usage\n' /dev/null nosuch
row 100 '' 'usage\n' /dev/null --help
row 100 '' 'usage\n' /dev/null --version
row 100 '' 'usage\n' /dev/null play --help
row 100 '' 'usage\n' /dev/null play x
row 100 '' 'usage\n' /dev/null play "$(printf '\377')"
row 100 '' 'usage\n' /dev/null "$(printf 'pl\303ay')"
row 100 '' 'usage\n' /dev/null make 1
row 100 '' 'usage\n' /dev/null make 65537 1
row 100 '' 'usage\n' /dev/null make 1 100001
row 100 '' 'usage\n' /dev/null make 01 1
row 100 '' 'usage\n' /dev/null queue "$work/envelope"
row 100 '' 'usage\n' /dev/null queue "$work/envelope" "$queue" --uid 4294967296
[ ! -e "$queue" ] || { echo "differs: a directory was made"; bad=1; }

# scripts
printf 'show\n' > "$work/show"
printf 'stepp a\n' > "$work/first"
printf 'show\nstepp a\n' > "$work/stepp"
row 0 'pid 0\n' '' "$work/show" play
row 0 '' '' /dev/null play
row 91 'script 1\n' '' "$work/first" play
row 91 'script 2\n' '' "$work/stepp" play
row 100 '' 'usage\n' "$work/show" play x
row 100 '' 'usage\n' "$work/show" play "$(printf '\377')"
row 54 '' '' "$work" play # a directory can't be read

# a script that is made, and played
made='file users/assign : +u:u:1000:1000:home/u:-::%%0A.%%0A\nfile home/u/.qmail-default : ./Maildir/%%0A\ndir home/u/Maildir/tmp\n'
made+='dir home/u/Maildir/new\ndir home/u/Maildir/cur\nmail m1 s49@h.example r4@h.example r9@h.example r9@h.example : body 1%%0A\n'
made+='run m1\nsender\nsettle K\nsum\n'
printf "$made" > "$work/made"
row 0 "$made" '' /dev/null make 1 1
row 0 'accepted 1 recipients 3 pending 0 delivered 3 noted 0 bounced 0 dropped 0\n' '' "$work/made" play

# an output that fails
status=0
: > "$work/out"
"$program" make 1 1 > /dev/full 2> "$work/err" || status=$?
say 53 '' '' "$status" "make > /dev/full"
status=0
: > "$work/out"
"$program" play < "$work/show" > /dev/full 2> "$work/err" || status=$?
say 53 '' '' "$status" "play > /dev/full"

# memory: with less and less of it the script is played whole, then the status is 51 and nothing is written, until the
# program can't be started any more
limited() { # KILOBYTES: the exit status of a play with so much for its data, which a stack that grows is no part of
  local status=0
  (ulimit -d "$1" && exec "$program" play < "$work/show" > "$work/out" 2> "$work/err") 2> "$work/noise" || status=$?
  echo "$status"
}
least=1
most=1000000
[ "$(limited "$most")" = 0 ] || { echo "differs: it isn't played with $most kilobytes"; bad=1; }
while [ $((most - least)) -gt 4 ]; do
  middle=$(((least + most) / 2))
  if [ "$(limited "$middle")" = 0 ]; then most=$middle; else least=$middle; fi
done
lacking=0
for step in $(seq 20); do
  status=$(limited $((most - 4 * step)))
  [ "$status" != 127 ] || break
  say 51 '' '' "$status" "play with too little memory"
  lacking=$step
done
[ "$lacking" -gt 0 ] || { echo "differs: no limit left it without memory"; bad=1; }

# one message: its only name in todo is the number of the message file, and both files are whole
printf 'hi\n' > "$work/message"
before=$(date +%s)
"$program" queue "$work/envelope" "$work/one" < "$work/message" > "$work/out" 2> "$work/err" &
pid=$!
status=0
wait "$pid" || status=$?
after=$(date +%s)
say 0 '' '' "$status" "queue one message"
number=$(ls "$work/one/todo")
file=$work/one/mess/$((number % 23))/$number
[ "$(stat -c %i "$file")" = "$number" ] || { echo "differs: the number of the message file"; bad=1; }
[ -z "$(ls "$work/one/pid")" ] || { echo "differs: a name is left in pid"; bad=1; }
printf 'u0\0p%d\0Fa@x\0Tb@y\0' "$pid" | cmp -s - "$work/one/todo/$number" || { echo "differs: the envelope"; bad=1; }
dated=0
for moment in $(seq "$before" "$after"); do
  { LC_ALL=C date -u -d "@$moment" "+Received: (qmail $pid invoked by uid 0); %-d %b %Y %H:%M:%S -0000"; echo hi; } | cmp -s - "$file" && dated=1
done
[ "$dated" = 1 ] || { echo "differs: the message, or its first line"; bad=1; }

# messages
row 0 '' '' "$work/message" queue "$work/envelope" "$queue"
row 91 '' '' "$work/message" queue "$work/bad" "$queue"
row 54 '' '' "$work/message" queue "$work/nosuch" "$queue"
row 54 '' '' "$work" queue "$work/envelope" "$queue"
printf '3:hi\n,11:Fa@x\0Tb@y\0\0,' > "$work/netstrings"
row 0 '' '' "$work/netstrings" queue - "$queue" --uid 1000
row 0 '' '' "$work/netstrings" queue - "$queue" --bounce
found=$(find "$queue/todo" -type f | wc -l)
[ "$found" = 3 ] || { echo "differs: $found messages are queued, and not 3"; bad=1; }
exit "$bad"
