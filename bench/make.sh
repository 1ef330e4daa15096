#!/usr/bin/env bash
# bench/make.sh [N]: prints the script of seed 7 with 100,000 mails N times (5) by ./qmail, by an awk program that follows
# man/qmail-make.1, and by awk's plain loop over the finished lines, one after the other. Prints the least seconds of each, and the
# most memory that ./qmail had. Then it plays the script of seed 7 with 2,000 mails N times, with seconds and memory, and that with
# 10,000. Exit status 1 if ./qmail and awk print different bytes, if ./qmail took longer than the awk program or over 1.5 times as
# long as the plain loop, or if a play doesn't print that each recipient was delivered to.
# The program is ./qmail, which `make build` leaves, or $QMAIL.
set -eu
times=${1:-5}
top=$(cd "$(dirname "$0")/.." && pwd)
program=$(realpath "${QMAIL:-$top/qmail}")
work=$(mktemp -d)
trap 'rm -rf "$work"' EXIT
cd "$work"

by_awk() { # SEED COUNT
  awk -v x="$1" -v count="$2" '
    function draw() { x = (75 * x + 74) % 65537; return x }
    BEGIN {
      print "file users/assign : +u:u:1000:1000:home/u:-::%0A.%0A"
      print "file home/u/.qmail-default : ./Maildir/%0A"
      print "dir home/u/Maildir/tmp\ndir home/u/Maildir/new\ndir home/u/Maildir/cur"
      for (k = 1; k <= count; k++) {
        text = "mail m" k " s" (draw() % 100) "@h.example"
        many = 1 + draw() % 3
        for (i = 0; i < many; i++) {
          d = draw(); e = draw()
          text = text (d % 2 == 0 ? " u" (e % 10) "@localhost" : " r" (e % 10) "@h.example")
        }
        print text " : body " k "%0A\nrun m" k
      }
      print "sender\nsettle K\nsum"
    }'
}

least() { sort -n "$1" | head -n 1; }

took() { # FILE COMMAND..: adds the seconds and the memory of a command to a file; its output is in `out`
  local file=$1
  shift
  /usr/bin/time -f '%e %M' -o one "$@" > out
  cat one >> "$file"
}

export -f by_awk
for ((k = 0; k < times; k++)); do
  took ours "$program" make 7 100000
  mv out script
  took awks bash -c 'by_awk 7 100000'
  cmp script out
  took plain awk '{ print }' script
  cmp script out
done
ours=$(least ours); awks=$(least awks); plain=$(least plain)
awk -v o="$ours" -v a="$awks" -v p="$plain" 'BEGIN {
  split(o, x); split(a, y); split(p, z)
  printf "make 7 100000: %.2f seconds, %.1f MB of memory; the awk program %.2f, a plain loop %.2f\n", x[1], x[2] / 1024, y[1], z[1]
  exit !(x[1] <= y[1] && x[1] <= 1.5 * z[1] + 0.01)
}'

delivered() { # COUNT: all of a script's recipients, counted in its lines
  awk '$1 == "mail" { mails++; for (i = 4; $i != ":"; i++) all++ }
    END { printf "accepted %d recipients %d pending 0 delivered %d noted 0 bounced 0 dropped 0\n", mails, all, all }' "$1"
}

for count in 2000 10000; do
  "$program" make 7 "$count" > script
  delivered script > wanted
  : > plays
  for ((k = 0; k < times; k++)); do
    took plays bash -c '"$0" play < script' "$program"
    cmp wanted out
  done
  least plays >> both
  awk -v n="$count" -v k="$times" '{ all += $1; if (NR == 1 || $1 < least) least = $1; if ($2 > most) most = $2 }
    END { printf "make 7 %d, played %d times: %.2f seconds at least, %.2f on average, %.1f MB of memory\n", n, k, least, all / k, most / 1024 }' plays
done
awk '{ seconds[NR] = $1 } END { printf "five times the mails take %.1f times as long, by the least of each\n", seconds[2] / seconds[1] }' both
