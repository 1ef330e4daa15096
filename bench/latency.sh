#!/usr/bin/env bash
# bench/latency.sh [N]: how long from the end of an injection, with 0, to the file in the maildir's new/, of N mails (50), one at a time
# with a pause of 0.2 to 1.3 seconds before each, so that the sender rests: median, least and most in milliseconds. The sender has
# contrib's settings: it looks once a second unless it is woken. Beside it Postfix with its defaults, in turns, by sendmail(1) and
# local(8). Then the same, 5 mails, behind 300 files in todo that can't be read; and while the sender is stopped, how long an
# injection takes. Then what an idle sender and its children take of a processor in 20 seconds.
#
# Exit status 1 if our median is 20 ms or more, a mail is missing, an injection waits, or the idle ones take 0.1 percent or more. The
# program is ./qmail, which `make build` leaves, or $QMAIL: one with proofs, since others are slower. Postfix is there only by root; in
# Debian the package is postfix. It gets a configuration of its own (bench/postfix.sh).
set -u
count=${1:-50}
top=$(cd "$(dirname "$0")/.." && pwd)
program=$(realpath "${QMAIL:-$top/qmail}")
[ -x "$program" ] || { echo "there is no $program"; exit 1; }
PATH=$PATH:/usr/sbin
sender=
running() { echo $sender; }
. "$top/bench/check.sh"
. "$top/bench/postfix.sh"
work_beside_postfix

cat > one.pl <<'END2'
# one.pl SECONDS DIR COMMAND..: pauses, runs the command, and prints the milliseconds from its end to the next file in DIR
use strict;
use Time::HiRes qw(time sleep);
my ($pause, $dir, @command) = @ARGV;
sub files { opendir my $open, $dir or return 0; scalar grep { !/^\./ } readdir $open }
sleep $pause;
my $before = files();
system(@command) == 0 or die "the injection failed\n";
my $ended = time;
while (files() == $before) { time - $ended < 90 or die "no file came\n"; sleep 0.0002 }
printf "%.2f\n", 1000 * (time - $ended);
END2

told() { # WHAT: of the milliseconds in the file of that name
  sort -n "times.$1" | awk -v what="$1" '{ at[NR] = $1 }
    END { printf "%s: median %.1f ms, least %.1f, most %.1f, of %d\n", what, at[int((NR + 1) / 2)], at[1], at[NR], NR }'
}

one() { # WHAT DIR COMMAND..: a mail
  local what=$1
  shift
  perl one.pl "$(awk -v at="$RANDOM" 'BEGIN { print 0.2 + 1.1 * at / 32768 }')" "$@" < message >> "times.$what"
}

spent() { # nanoseconds of a processor of the sender and its children so far
  for pid in "$sender" $(pgrep -P "$sender"); do cat "/proc/$pid/task"/*/schedstat; done | awk '{ all += $1 } END { print all }'
}

mkdir -p queue/users queue/home/u1/Maildir/tmp queue/home/u1/Maildir/new queue/home/u1/Maildir/cur
printf './Maildir/\n' > queue/home/u1/.qmail
printf '=u1:u1:1000:1000:home/u1:::\n.\n' > queue/users/assign
printf 'Fs@x\0Tu1@localhost\0\0' > envelope
{ printf 'Subject: a mail\n\n'; head -c 1000 /dev/zero | tr '\0' x | fold -w 70; echo; } > message
printf '#!/bin/sh\nprintf "r\\0Kok\\0"\n' > program
chmod +x program
QMAIL_IDLE_MS=1000 "$program" send queue "$work/program" --turns 1000000 2> log &
sender=$!
if [ "$(id -u)" = 0 ] && command -v postfix > noise; then
  make_postfix 25
  own_users postfix -c "$work/postfix/etc" start > noise 2>&1 && with_postfix=so
fi
[ -n "$with_postfix" ] || echo "without Postfix: it needs root and the package"
sleep 2
for ((k = 0; k < count; k++)); do
  one ours queue/home/u1/Maildir/new "$program" queue envelope queue
  [ -z "$with_postfix" ] || one postfix postfix/home/u1/Maildir/new sendmail -C "$work/postfix/etc" -f s@x u1@localhost
done
told ours
[ -z "$with_postfix" ] || told postfix
check "each mail came" "$(wc -l < times.ours)" "$count"
check "the median is under 20 ms" "$(told ours | awk '{ print ($3 < 20) }')" 1

sleep 3
before=$(spent)
sleep 20
idle=$(($(spent) - before))
awk -v spent="$idle" 'BEGIN { printf "an idle sender and its children: %.3f percent of a processor\n", spent / 2e8 }'
check "it takes under 0.1 percent of a processor" "$((idle < 20000000))" 1

kill -STOP "$sender"
begun=$(date +%s%N)
for ((k = 0; k < 100; k++)); do "$program" queue envelope queue < message || echo "an injection failed"; done
awk -v from="$begun" -v to="$(date +%s%N)" 'BEGIN { printf "while the sender is stopped: %.1f ms an injection\n", (to - from) / 1e8 }'
check "no injection waits for it" "$(($(date +%s%N) - begun < 10000000000))" 1
kill -CONT "$sender"
for ((k = 0; k < 600; k++)); do
  [ "$(find queue/home/u1/Maildir/new -type f | wc -l)" -ge $((count + 100)) ] && break
  sleep 0.1
done

# a link to itself can't be opened
for ((k = 9000000100; k < 9000000400; k++)); do ln -s "$k" "queue/todo/$k"; done
sleep 2
for ((k = 0; k < 5; k++)); do one behind queue/home/u1/Maildir/new "$program" queue envelope queue; done
told behind
check "each mail behind 300 files came" "$(wc -l < times.behind)" 5
exit "$bad"
