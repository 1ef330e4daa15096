#!/usr/bin/env bash
# bench/audit.sh [N]: fills a fresh queue by N injections (100 without it), of which every second one is killed (kill -9)
# at a random moment, unless it is done by then. Then, in a second queue, puts by hand a number for each combination of a
# number's files in the flat layout, in the split one and in both, and names that the queue doesn't write. Checks that `qmail audit` prints of each what ls and awk
# see, that all files are as before, that no file is opened and no directory made (with strace(1)), what it says of a directory that
# is missing, mistyped or no queue, and the exit status of an output that can't be written. Prints how long the audits took. Exit
# status 1 if something differs. In Debian: the package strace.
set -eu
count=${1:-100}
top=$(cd "$(dirname "$0")/.." && pwd)
program=${QMAIL:-$top/qmail}
work=$(mktemp -d)
trap 'rm -rf "$work"' EXIT
bad=0

seen() { # DIR: what an audit is to print, by ls and awk alone
  (
    cd "$1"
    ls -1A pid | wc -l | awk '{ print "pid " $1 }'
    for dir in intd todo bounce mess/* info/* local/* remote/* intdx/* todox/*; do
      ls -1Ap "$dir" | sed "s#^#$dir/#"
    done | awk -F/ '
      $NF !~ /^[1-9][0-9]*$/ { next }
      NF == 3 && $NF % 23 != $2 { next }
      { file = $1; sub(/x$/, "", file); there[$NF, file] = 1; numbers[$NF] = 1 }
      END {
        parts = split("mess intd todo info local remote bounce", part, " ")
        for (n in numbers) {
          files = ""
          for (k = 1; k <= parts; k++) files = files ((n, part[k]) in there ? "+" : "-")
          state = "other"
          if (files == "+------") state = "S2"
          if (files == "++-----") state = "S3"
          if (files ~ /^\+.\+...-$/) state = "S4"
          if (files ~ /^\+--\+...$/) state = "S5"
          print n, state
        }
      }' | sort -n
  )
}

files() { # DIR: everything of its files but when they were read
  find "$1" -printf '%P %i %n %s %T@ %C@\n' | sort
}

compare() { # WHAT DIR: audits the queue, and compares
  local begun ended status=0
  seen "$2" > "$work/seen"
  files "$2" > "$work/before"
  begun=$(date +%s%N)
  "$program" audit "$2" > "$work/told" || status=$?
  ended=$(date +%s%N)
  files "$2" > "$work/after"
  printf '%s: %d numbers, %d milliseconds\n' "$1" "$(($(wc -l < "$work/told") - 1))" "$(((ended - begun) / 1000000))"
  awk '$1 == "pid" { print "  names in pid/: " $2 } $1 != "pid" { n[$2]++ } END { for (s in n) print "  " s ": " n[s] }' "$work/told" | sort
  if [ "$status" != 0 ]; then echo "  it ended with $status"; bad=1; fi
  if ! diff "$work/seen" "$work/told" > "$work/diff"; then
    echo "  it differs from what ls and awk see (<):"
    head -20 "$work/diff"
    bad=1
  fi
  if ! cmp -s "$work/before" "$work/after"; then echo "  a file has changed"; bad=1; fi
}

ends() { # WHAT STATUS: whether the last command ended with this, and printed nothing
  if [ "$status" = "$2" ] && [ ! -s "$work/told" ]; then
    echo "$1: $status"
  else
    echo "$1: $status, and not $2, or it printed something"
    bad=1
  fi
}

refused() { # WHAT DIR LINE: an audit of what can't be listed ends with 54, tells this line, and makes nothing
  find "$2" 2> "$work/noise" | sort > "$work/before" || true
  status=0
  "$program" audit "$2" > "$work/told" 2> "$work/said" || status=$?
  ends "$1" 54
  find "$2" 2> "$work/noise" | sort > "$work/after" || true
  if [ "$(cat "$work/said")" != "$3" ]; then echo "  it said: $(head -n 1 "$work/said")"; bad=1; fi
  if ! cmp -s "$work/before" "$work/after"; then echo "  it made something"; bad=1; fi
}

# injections, of which some are killed
queue=$work/queue
printf 'Fs@example.org\0Tr@example.org\0\0' > "$work/envelope"
head -c 200000 /dev/zero | tr '\0' x > "$work/message"
mkfifo "$work/never"
begun=$(date +%s%N)
for ((k = 0; k < 5; k++)); do "$program" queue "$work/envelope" "$queue" < "$work/message"; done
most=$((($(date +%s%N) - begun) / 5000)) # microseconds: as long as one takes
for ((k = 5; k < count; k++)); do
  "$program" queue "$work/envelope" "$queue" < "$work/message" &
  if ((k % 2)); then
    printf -v delay '%d.%06d' 0 "$((RANDOM * most / 32768))"
    read -rt "$delay" <> "$work/never" || true # waits without a process of its own
    kill -9 $! 2> "$work/noise" || true
  fi
  wait $! 2> "$work/noise" || true
done
compare "a queue of injections" "$queue"

# each combination of files, and names that the queue doesn't write
other=$work/other
"$program" clean "$other" < /dev/null > "$work/told" # makes the directories
for ((first = 1000; first <= 3000; first += 1000)); do # flat, split, both
  for ((n = first + 1; n < first + 128; n++)); do
    s=$((n % 23))
    place=1
    for file in mess/$s/ intd todo info/$s/ local/$s/ remote/$s/ bounce/; do
      case $file-$first in
      [it]*[do]-1000) paths=$file/$n ;;
      [it]*[do]-2000) paths=${file}x/$s/$n ;;
      [it]*[do]-3000) paths="$file/$n ${file}x/$s/$n" ;;
      *) paths=$file$n ;;
      esac
      for path in $paths; do
        if (((n - first) & place)); then : > "$other/$path"; fi
      done
      place=$((place * 2))
    done
  done
done
for path in pid/77.0.1 pid/stray todo/x todo/01 todo/0 mess/0/1 mess/3/03 info/1/y bounce/1.2 intd/-1 control/me \
  todox/1/x todox/2/1 intdx/3/03; do
  : > "$other/$path"
done
mkdir "$other/todo/2000"
compare "each combination of files" "$other"

if command -v strace > "$work/which"; then
  strace -f -y -e trace=%file -o "$work/calls" "$program" audit "$other" > "$work/told"
  grep -F "$other" "$work/calls" | grep -v -e 'execve(' -e O_DIRECTORY -e '\(stat\|statx\|newfstatat\)(' > "$work/opened" || true
  if [ -s "$work/opened" ]; then
    echo "it made other calls than to list directories and to ask what a name is:"
    head -5 "$work/opened"
    bad=1
  else
    echo "it only lists directories, and asks what a name is"
  fi
fi

refused "a mistyped directory" "$work/othre" "audit: $work/othre is missing"
refused "no directory, and no parent of it" "$work/no/queue" "audit: $work/no/queue is missing"
mkdir "$work/plain"
refused "a directory that is no queue" "$work/plain" "audit: $work/plain/pid is missing"
refused "a file" "$work/envelope" "audit: $work/envelope is no directory"
mv "$other/info/7" "$other/away"
refused "a queue that lacks a directory" "$other" "audit: $other/info/7 is missing"
: > "$other/info/7"
refused "a file in a directory's place" "$other" "audit: $other/info/7 is no directory"
rm "$other/info/7"
mv "$other/away" "$other/info/7"
if [ -c /dev/full ]; then
  : > "$work/told"
  status=0
  "$program" audit "$other" > /dev/full 2> "$work/noise" || status=$?
  ends "a full disk as the output" 53
fi
exit "$bad"
