#!/usr/bin/env bash
# bench/queue.sh N: N injections of a small message, one after the other, each a process of ./qmail, into a fresh
# directory; prints how many a second. Then, if strace is there, the calls of the system that one injection makes on
# files below that directory, and a count of all its calls; exit status 1 if the calls on files, after the directories
# are looked at, aren't those of the injector's table, each link with the sync of its directory. In Debian: the package strace.
set -eu
count=${1:?usage: bench/queue.sh N}
top=$(cd "$(dirname "$0")/.." && pwd)
program=${QMAIL:-$top/qmail}
work=$(mktemp -d)
trap 'rm -rf "$work"' EXIT
queue=$work/queue
printf 'Fs@example.org\0Tr@example.org\0\0' > "$work/envelope"
printf 'Subject: hello\n\nhello\n' > "$work/message"

begun=$(date +%s.%N)
for ((k = 0; k < count; k++)); do
  "$program" queue "$work/envelope" "$queue" < "$work/message"
done
ended=$(date +%s.%N)
"$top/bench/states.sh" "$queue" > "$work/states"
awk -v n="$count" -v b="$begun" -v e="$ended" 'BEGIN { printf "%d injections, one after the other: %.2f seconds, %.0f a second\n", n, e - b, n / (e - b) }'
echo "queued: $(grep -c ' S4$' "$work/states")"

if ! command -v strace > "$work/which"; then
  echo "strace isn't there, so no calls are counted"
  exit 0
fi
bad=0
echo
echo "calls on the files of one injection:"
strace -f -y -s 40 -e trace=file,desc -o "$work/calls" "$program" queue "$work/envelope" "$queue" < "$work/message"
grep -F "$queue/" "$work/calls" | grep -v -e mkdir -e O_DIRECTORY -e getdents | sed -e 's/^[0-9]* *//' -e "s#$queue/##g" > "$work/listed"
sed 's/^/  /' "$work/listed"
echo
grep -c O_DIRECTORY "$work/calls" | sed 's/$/ directories were listed before/'
# the number of a new file is that of its open file (fstat); closes come with the end
made=$(sed 's/(.*//' "$work/listed" | grep -vx -e fstat -e newfstatat -e statx -e close | sed 's/at$//' | tr '\n' ' ')
if [ "$made" = "open open link fsync unlink write fsync open write fsync open link fsync " ]; then
  echo "they are the nine of the injector's table, the sync of a directory after each link, and what tells a new file's number"
else
  echo "they aren't the nine of the injector's table: $made"
  bad=1
fi
echo
echo "all calls of one injection:"
strace -f -c -o "$work/all" "$program" queue "$work/envelope" "$queue" < "$work/message"
sed 's/^/  /' "$work/all"
exit "$bad"
