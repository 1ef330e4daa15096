#!/usr/bin/env bash
# bench/deliver.sh [minute]: the spawners and local deliveries over real processes and a fresh directory: what a remote
# program prints and what its report is, each exit status, a request that the end cuts short, a text of 4097 bytes, a
# local part without a user; a command and a forward, a maildir that Python's mailbox and mutt read, a command that gets 4 MB,
# one that prints 87 MB, one that ends its process group, one that never ends, instructions that are a FIFO or a link to one, and
# a recipient that isn't UTF-8. Exit status 1 if something differs. Ends by itself within a minute; with `minute` a spawner
# waits a minute more, and its processor time is told. Python and mutt are Debian's python3 and mutt (apt-get install); a
# reader that is missing is skipped, and told.
set -u
top=$(cd "$(dirname "$0")/.." && pwd)
program=${QMAIL:-$top/qmail}
program=$(realpath "$program")
work=$(mktemp -d)
trap 'rm -rf "$work"' EXIT
cd "$work"
. "$top/bench/check.sh"

bytes() { od -An -v -tx1 | tr -d '\n' | sed 's/^ //'; } # what was printed, as hexadecimal digits

queue() { timeout 20 "$program" "$@"; }

request() { printf "\\$(printf %03o "$1")%s\\0%s\\0%s\\0" "$2" "$3" "$4"; } # SLOT MESS SENDER RECIPIENT

# the message of the rows: number 1, with its Received line
message='Received: (qmail 77 invoked by uid 1000); 1 Jan 1970 00:00:00 -0000
hi
'
queue clean q < /dev/null > empty
mkdir -p q/mess/1 q/users q/home/j/Maildir/tmp q/home/j/Maildir/new q/home/j/Maildir/cur
printf %s "$message" > q/mess/1/1

# the remote spawner
cat > program <<'END'
#!/bin/sh
[ "$1/$2/$3" = y/a@x/b@y ] && [ "$(readlink /proc/self/fd/2)" = /dev/null ] && cmp -s - "$0.message" && printf 'r\0Kok\0'
END
chmod +x program
printf %s "$message" > program.message
check "a request is delivered" "$(request 0 1/1 a@x b@y | queue rspawn q ./program | bytes)" "78 00 4b 6f 6b 00"
request 0 1/1 a@x b@y | queue rspawn q ./program > out
check "and the spawner ends" "$?" 0

tell() { printf '#!/bin/sh\n%s\n' "$1" > told && chmod +x told; request 7 1/1 a@x b@y | queue rspawn q ./told | tail -c +3 | tr '\0' '.'; }
check "a temporary refusal" "$(tell "printf 'snot now\\0Zlater\\0'")" "Znot nowlater."
check "a lasting refusal" "$(tell "printf 'hno such user\\0Zx\\0'")" "Dno such user."
check "no output" "$(tell "exit 0")" "$(printf 'Zqmail-remote produced no output.\n.')"
check "status 111" "$(tell "exit 111")" "$(printf 'ZUnable to run qmail-remote.\n.')"
check "status 1" "$(tell "exit 1")" "$(printf 'DUnable to run qmail-remote.\n.')"
check "a crash" "$(tell 'kill -9 $$')" "$(printf 'Zqmail-remote crashed.\n.')"
check "no such program" "$(request 7 1/1 a@x b@y | queue rspawn q ./nosuch | tail -c +3 | tr '\0' '.')" "$(printf 'Zqmail-remote crashed.\n.')"
check "its group, and no other, ends" "$(tell 'kill 0; sleep 5')" "$(printf 'Zqmail-remote crashed.\n.')"
check "its standard error goes nowhere" "$(tell "echo forged >&2; printf 'r\\0Kok\\0'" 2>&1)" "Kok."
crashed=$(printf 'Zqmail-remote crashed.\n.')
check "a byte over a mebibyte of output, and status 0" "$(tell 'exec head -c 1048577 /dev/zero')" "$crashed"
check "output without end" "$(tell 'exec cat /dev/zero')" "$crashed"
request 7 1/1 a@x b@y | queue rspawn q ./told > out
check "and the spawner ends well" "$?" 0
check "no message" "$(request 0 2/25 a@x b@y | queue rspawn q ./program | tr '\0' '.')" "x.ZUnable to open the message. (#4.3.0)."
check "no message file's name" "$(request 0 1/2 a@x b@y | queue rspawn q ./program | tr '\0' '.')" "x.ZBad request. (#4.3.0)."
check "no such slot" "$(request 120 1/1 a@x b@y | queue rspawn q ./program | tail -c +3 | tr '\0' '.')" "ZBad request. (#4.3.0)."
check "no @ in the recipient" "$(request 0 1/1 a@x b | queue rspawn q ./program | tr '\0' '.')" "x.ZBad request. (#4.3.0)."
check "a recipient that isn't UTF-8" "$(request 0 1/1 a@x "$(printf '\377')@y" | queue rspawn q ./program | tail -c +3 | tr '\0' '.')" "$(printf 'Zqmail-remote crashed.\n.')"
check "a request that is cut short" "$(printf '\0001/1\0a@x\0b@y' | queue rspawn q ./program | bytes)" 78
long=$(head -c 4097 /dev/zero | tr '\0' x)
{ request 0 1/1 a@x b@y; request 1 1/1 "$long" b@y; request 2 1/1 a@x b@y; } | queue rspawn q ./program > out
check "a text of 4097 bytes: status" "$?" 91
check "and what came before it" "$(bytes < out)" "78 00 4b 6f 6b 00"
queue rspawn q ./program < . > out 2> noise
check "requests that can't be read" "$?" 54
request 0 1/1 a@x b@y | queue rspawn q ./program > /dev/full
check "an output that can't be written" "$?" 53
queue rspawn q "" < /dev/null > out 2> err
check "no program" "$? $(cat err)" "100 usage"
QMAIL_DRAIN_MS=ten queue lspawn q < /dev/null > out 2> err
check "a limit that is no number" "$? $(cat err)" "100 QMAIL_DRAIN_MS is not a number from 1 to 86400000"
printf '#!/bin/sh\nsleep 1\nprintf "r\\0K$3\\0"\n' > told
for slot in $(seq 0 119); do request "$slot" 1/1 a@x "$slot@y"; done > many
begun=$(date +%s)
check "120 at once" "$(queue rspawn q ./told < many | tr '\0' '\n' | grep -ac '@y$')" 120
[ $(($(date +%s) - begun)) -lt 15 ] || { echo "differs: 120 at once took $(($(date +%s) - begun)) seconds"; bad=1; }

# the local spawner, and deliveries
check "no users" "$(request 0 1/1 a@x j@localhost | queue lspawn q | tail -c +3 | tr '\0' '.')" "$(printf 'DSorry, no mailbox here by that name. (#5.1.1)\n.')"
printf '=j:j:1000:1000:home/j:::\n' > q/users/assign
check "a bad users/assign" "$(request 0 1/1 a@x j@localhost | queue lspawn q | tail -c +3 | tr '\0' '.')" "$(printf 'ZTrouble reading users/assign. (#4.3.0)\n.')"
printf '=j:j:1000:1000:home/j:::\n.\n' > q/users/assign
check "a maildir" "$(request 0 1/1 a@x j@localhost | queue lspawn q | tail -c +3 | tr '\0' '.')" "$(printf 'Kdid 1+0+0\n.')"
check "what it holds" "$(cat q/home/j/Maildir/new/*.localhost)" "$(printf 'Return-Path: <a@x>\nDelivered-To: j@localhost\n%s' "$message")"
check "and nothing is left in tmp" "$(ls -A q/home/j/Maildir/tmp)" ""
printf '&a@b\n|exit 99\n./Maildir/\n' > q/home/j/.qmail
request 0 1/1 a@x j@localhost | queue lspawn q | tail -c +3 | tr '\0' '.' > told
check "a forward and a command" "$(sed 's/^qp [0-9]*$/qp P/' told)" "$(printf 'Kdid 0+1+1\nqp P\n.')"
pid=$(sed -n 's/^qp //p' told)
check "the forward's envelope" "$(tr '\0' '.' < "$(ls q/todo/*)")" "u1000.p$pid.Fa@x.Ta@b."
n=$(basename "$(ls q/todo/*)")
check "the forward's message" "$(tail -n +2 "q/mess/$((n % 23))/$n")" "$(printf 'Delivered-To: j@localhost\n%s' "$message")"

deliver() { # INSTRUCTIONS: what a local delivery of standard input prints, and its status
  printf '%s\n' "$1" > q/home/j/.qmail
  queue local q =j =home/j =j = = =localhost =a%40x =./Maildir/ --uid 1000
  echo "status $?"
}
hi='3:hi
,'
check "a command that succeeds" "$(printf %s "$hi" | deliver '|cat > got')" "$(printf 'did 0+0+1\nstatus 0')"
check "gets the message alone" "$(cat got)" hi
check "one that fails for good" "$(printf %s "$hi" | deliver '|exit 100')" "$(printf 'Command failed with status 100. (#5.3.0)\nstatus 100')"
check "one that fails for now" "$(printf %s "$hi" | deliver '|exit 1')" "$(printf 'Command failed with status 1. (#4.3.0)\nstatus 111')"
printf '|kill 0\n' > q/home/j/.qmail
check "one that ends its group" "$(request 0 1/1 a@x j@localhost | { queue lspawn q; echo "status $?"; } | tail -c +3 | tr '\0' '.')" "$(printf 'ZCommand failed with status 0. (#4.3.0)\n.status 0')"
check "one that never ends" "$(export QMAIL_DRAIN_MS=1000; printf %s "$hi" | deliver '|exec sleep 1000')" "$(printf 'Command failed with status 0. (#4.3.0)\nstatus 111')"
{ printf 4000000:; head -c 4000000 /dev/zero | tr '\0' x; printf ,; } > large
check "4 MB through cat" "$(deliver '|cat' < large)" "$(printf 'did 0+0+1\nstatus 0')"
check "4 MB, counted" "$(deliver '|wc -c > got' < large; cat got)" "$(printf 'did 0+0+1\nstatus 0\n4000000')"
check "4 MB that isn't read" "$(deliver '|exit 0' < large)" "$(printf 'did 0+0+1\nstatus 0')"
check "87 MB that are printed" "$(printf %s "$hi" | deliver '|head -c 87000000 /dev/zero; exit 99')" "$(printf 'did 0+0+1\nstatus 0')"
check "a mailbox file" "$(printf %s "$hi" | deliver ./mailbox)" "$(printf 'Mailbox files are not delivered to here. (#4.3.0)\nstatus 111')"
check "a first line that is blank" "$(printf %s "$hi" | deliver '')" "$(printf 'Uh-oh: first line of .qmail file is blank. (#4.2.1)\nstatus 111')"
check "no netstring" "$(printf '4:hi\n,' | deliver '|exit 0')" "$(printf 'Unable to read the message. (#4.3.0)\nstatus 111')"
check "a loop" "$(printf '28:Delivered-To: j@localhost\n\nx,' | deliver '|exit 0')" "$(printf 'This message is looping: it already has my Delivered-To line. (#5.4.6)\nstatus 100')"
rm q/home/j/.qmail
mkfifo q/home/j/.qmail
check "instructions that are a FIFO" "$(printf %s "$hi" | queue local q =j =home/j =j = = =localhost =a%40x =./Maildir/; echo "status $?")" "$(printf 'Unable to read the home. (#4.3.0)\nstatus 111')"
mv q/home/j/.qmail q/home/j/fifo
ln -s fifo q/home/j/.qmail
check "a link to one" "$(printf %s "$hi" | queue local q =j =home/j =j = = =localhost =a%40x =./Maildir/; echo "status $?")" "$(printf 'Unable to read the home. (#4.3.0)\nstatus 111')"
rm q/home/j/.qmail
queue local q j =home/j =j = = =localhost =a%40x =./Maildir/ < /dev/null > out 2> err
check "a word without =" "$? $(cat err)" "100 usage"

# outside readers of the maildir, with five drops more
for k in 1 2 3 4 5; do
  printf '%s:Subject: drop %s\n\nbody %s\n,' 24 "$k" "$k" | queue local q =j =home/j =j = = =localhost "=s$k%40x" =./Maildir/ > out || bad=1
done
if command -v python3 > noise; then
  check "python3 reads it" "$(python3 -c '
import mailbox
box = mailbox.Maildir("q/home/j/Maildir", factory=None, create=False)
seen = sorted((str(m["Subject"]), m["Return-Path"], m["Delivered-To"], m.get_payload()) for m in box if m["Subject"])
wanted = [(f"drop {k}", f"<s{k}@x>", "j@localhost", f"body {k}\n") for k in range(1, 6)]
print(len(box), seen == wanted)')" "6 True"
else
  echo "skipped: python3 isn't installed"
fi
if command -v mutt > noise && command -v script > noise; then
  echo "set folder=$work spoolfile=$work/q/home/j/Maildir record=$work/sent postponed=$work/postponed mbox_type=mbox
set confirmcreate=no confirmappend=no move=no quit=yes" > rc
  keys="<tag-pattern>~A<enter><tag-prefix><copy-message>$work/copies<enter><exit>"
  TERM=xterm timeout 60 script -qec "mutt -n -F $work/rc -R -f $work/q/home/j/Maildir -e 'push \"$keys\"'" /dev/null < /dev/null > noise
  check "mutt reads it" "$(grep '^Subject: drop ' copies | sort -u | wc -l)" 5
else
  echo "skipped: mutt or script(1) isn't installed"
fi

# a spawner that waits
if [ "${1:-}" = minute ]; then
  sleep 61 | { bash -c 'TIMEFORMAT="processor time of a minute that a spawner waits: %U + %S seconds"; time "$0" rspawn q /bin/true > out' "$program"; }
fi
[ "$bad" = 0 ] && echo "all as it should be"
exit "$bad"
