#!/usr/bin/env bash
# bench/rates.sh [N [DIR]]: how many a second of N messages (2,000; a multiple of 400) of 2 KB, in a fresh directory below DIR (that of
# temporary files), side by side in four rounds of a fourth each, on the same disk.
#
# Local: four shells inject, each message by a process of its own, while the sender runs, until the last file is in the maildirs of 20
# users. Postfix: so with its sendmail(1) and local(8). Bare: four perl programs that make the same file calls, injection, sender and
# delivery, and start as many processes (true(1), and setsid(1) with it).
# Remote: N recipients in messages of 100, from the first injection to the last report, with a program that ends at once. Postfix: its
# smtp(8) to smtp-sink(1), a session for each recipient. Bare: as many processes of that program, 20 at a time.
#
# Prints how many a second, and ours beside the others. Exit status 1 if a mail is missing. The program is ./qmail, which `make build`
# leaves, or $QMAIL: one with proofs, since others are slower. If $BEFORE names another one, as that of an earlier commit, it is one of
# the others. Postfix is there only by root; in Debian the package is postfix. It gets a configuration of its own (bench/postfix.sh).
set -u
count=${1:-2000}
rounds=4
each=$(((count / rounds + 99) / 100 * 100))
top=$(cd "$(dirname "$0")/.." && pwd)
program=$(realpath "${QMAIL:-$top/qmail}")
[ -x "$program" ] || { echo "there is no $program"; exit 1; }
earlier=${BEFORE:+$(realpath "$BEFORE")}
PATH=$PATH:/usr/sbin
senders=
sink=
running() { echo $senders $sink; }
. "$top/bench/check.sh"
. "$top/bench/postfix.sh"
work_beside_postfix ${2:+"$2"}
export QMAIL_IDLE_MS=20
port=$((20000 + $$ % 10000))

now() { date +%s.%N; }

await() { # N COMMAND..: until it prints N or more, at most ten minutes
  local wanted=$1
  shift
  for _ in $(seq 12000); do
    [ "$("$@")" -ge "$wanted" ] && return
    sleep 0.05
  done
}

timed() { # WHAT COMMAND..: adds the seconds that it takes to those of WHAT
  local what=$1 begun
  shift
  begun=$(now)
  "$@"
  awk -v from="$begun" -v to="$(now)" 'BEGIN { print to - from }' >> "seconds.$what"
}

rate() { # WHAT: told
  awk -v what="$1" -v n="$((each * rounds))" '{ all += $1 } END { printf "%s: %d in %.1f seconds, %.1f a second\n", what, n, all, n / all }' "seconds.$1"
}

beside() { # OURS OTHER: how much longer the one takes than the other
  awk -v what="$1 beside $2" 'FNR == NR { ours += $1; next } { other += $1 } END { printf "%s: %.2f times as long\n", what, ours / other }' \
    "seconds.$1" "seconds.$2"
}

four() { # COMMAND..: four shells at once, each with a fourth of the numbers below $each
  local shell shells=
  for shell in 0 1 2 3; do
    for ((k = shell; k < each; k += 4)); do "$@" "$k"; done &
    shells="$shells $!"
  done
  wait $shells
}

files() { find "$1" -path '*/new/*' -type f | wc -l; }
ours() { "$program" queue "envelope$(($1 % 20 + 1))" queue < message; }
before() { "$earlier" queue "envelope$(($1 % 20 + 1))" before < message; }
by_sendmail() { sendmail -C "$work/postfix/etc" -f s@x "u$(($1 % 20 + 1))@localhost" < message; }
local_ours() { four ours; await "$((round * each))" files queue/home; }
local_before() { four before; await "$((round * each))" files before/home; }
local_postfix() { four by_sendmail; await "$((round * each))" files postfix/home; }
local_bare() {
  local shell shells=
  for shell in 0 1 2 3; do
    perl bare.pl "$shell" "$((each / 4))" &
    shells="$shells $!"
  done
  wait $shells
}

reports() { grep -c '^delivery .* success' "$1.log"; }
sent() { grep -c 'relay=127.0.0.1.*status=sent' postfix/log/log; }
remote_by() { # PROGRAM QUEUE
  for ((k = 0; k < each; k += 100)); do "$1" queue envelope "$2" < message; done
  await "$((each * rounds + round * each))" reports "$2"
}
remote_ours() { remote_by "$program" queue; }
remote_before() { remote_by "$earlier" before; }
remote_postfix() {
  for ((k = 0; k < each; k += 100)); do sendmail -C "$work/postfix/etc" -f s@x $(seq -f r%g@example.net 100) < message; done
  await "$((round * each))" sent
}
remote_bare() { seq "$each" | xargs -P 20 -n 1 ./program > noise; }

cat > bare.pl <<'END2'
use strict;
use Fcntl;
use IO::Handle;
my ($shell, $count) = @ARGV;
sub create { sysopen my $file, $_[0], O_RDWR | O_CREAT | O_EXCL | O_APPEND, 0644 or die; $file }
sub fill { my ($file, $text) = @_; syswrite($file, $text) == length $text or die; $file->sync or die }
sub text { open my $file, "<", $_[0] or die; local $/; scalar <$file> }
sub synced { sysopen my $open, $_[0], O_RDONLY or die; $open->sync or die }
sub name { my ($old, $dir, $new) = @_; link $old, "$dir/$new" or die; synced($dir) }
sub start { my $pid = fork; if (!$pid) { exec @_ or die } waitpid $pid, 0 }
my $text = text("message");
chdir "bare" or die;
for my $k (1 .. $count) {
  my $pid = "pid/$$.$k";
  start("/bin/true");
  my $file = create($pid);
  my $n = (stat $file)[1];
  name($pid, "mess", $n);
  unlink $pid or die;
  fill($file, $text);
  fill(create("intd/$n"), "u0\0p77\0Fs\@x\0Tu1\@localhost\0");
  name("intd/$n", "todo", $n);
  text("todo/$n");
  fill(create("info/$n"), "Fs\@x\0");
  fill(create("local/$n"), "Tu1\@localhost\0");
  unlink "intd/$n", "todo/$n" or die;
  text("local/$n");
  my $mail = text("mess/$n");
  start("/usr/bin/setsid", "/bin/true");
  fill(create("tmp/$n.$k.$shell"), $mail);
  name("tmp/$n.$k.$shell", "new", "$$.$k");
  unlink "tmp/$n.$k.$shell" or die;
  sysopen my $mark, "local/$n", O_RDWR or die;
  syswrite($mark, "D") == 1 or die; # without a sync, as the sender marks
  unlink "local/$n", "info/$n", "mess/$n" or die;
}
END2
printf '#!/bin/sh\nprintf "r\\0Kok\\0"\n' > program
chmod +x program
mkdir -p bare/pid bare/intd bare/todo bare/mess bare/info bare/local bare/tmp bare/new
begin() { # PROGRAM QUEUE: a queue of 20 users, and its sender
  local user
  "$1" clean "$2" < /dev/null > noise
  for user in $(seq 20); do
    mkdir -p "$2/home/u$user/Maildir/tmp" "$2/home/u$user/Maildir/new" "$2/home/u$user/Maildir/cur"
    printf './Maildir/\n' > "$2/home/u$user/.qmail"
    echo "=u$user:u$user:1000:1000:home/u$user:::" >> "$2/users/assign"
  done
  echo . >> "$2/users/assign"
  "$1" send "$2" "$work/program" --turns 1000000 2> "$2.log" &
  senders="$senders $!"
}
for user in $(seq 20); do printf 'Fs@x\0Tu%s@localhost\0\0' "$user" > "envelope$user"; done
{ printf 'Subject: a mail\n\n'; head -c 2000 /dev/zero | tr '\0' x | fold -w 70; echo; } > message
{ printf 'Fs@x\0'; printf 'Tr%s@y\0' $(seq 100); printf '\0'; } > envelope
begin "$program" queue
[ -z "$earlier" ] || begin "$earlier" before
others=${earlier:+before }bare
if [ "$(id -u)" = 0 ] && command -v postfix smtp-sink > noise; then
  make_postfix "$port"
  smtp-sink -u nobody "127.0.0.1:$port" 1000 > sink.log 2>&1 &
  sink=$!
  own_users postfix -c "$work/postfix/etc" start > noise 2>&1 && with_postfix=so others="postfix $others"
fi
[ -n "$with_postfix" ] || echo "without Postfix: it needs root and the package"
for where in local remote; do
  for ((round = 1; round <= rounds; round++)); do
    for who in ours $others; do timed "$where-$who" "${where}_$who"; done
  done
done
for where in local remote; do
  for who in ours $others; do rate "$where-$who"; done
  for who in $others; do beside "$where-ours" "$where-$who"; done
done
check "each mail is in a maildir" "$(files queue/home)" "$((each * rounds))"
check "each recipient was delivered" "$(reports queue)" "$((2 * each * rounds))"
exit "$bad"
