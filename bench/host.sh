#!/usr/bin/env bash
# bench/host.sh: a mail host of real parts, in a directory of its own and on loopback addresses alone. It types the tour of
# docs/OPERATION.md, line by line as it stands there, with that directory in place of /usr/local and /var/qmail, ports over 20000, the
# user joe in place of the machine's first one, nobody in place of qmail, and a shell's loop as the supervisor; lines of apt-get,
# adduser and systemctl are passed over, and told. Then it checks each step: mail that came by SMTP is read by mutt and by Python's
# mailbox; mail went out; a bounce came; what the host outside refuses is a bounce, or is tried again; after a kill of all
# processes of the sender each mail is there. By root or not.
#
# Exit status 1 if something differs or a program is missing: in Debian the packages mailfront, ipsvd, msmtp, mutt, postfix (of which it
# runs smtp-sink alone), python3, procps and make, and acl by root. The program is ./qmail, which `make build` leaves, or $QMAIL. Ends by
# itself within six minutes.
set -u
top=$(cd "$(dirname "$0")/.." && pwd)
program=$(realpath "${QMAIL:-$top/qmail}")
PATH=$PATH:/usr/sbin
for name in smtpfront-qmail tcpsvd msmtp mutt smtp-sink python3 make script setpriv; do
  command -v "$name" > /dev/null || { echo "missing: $name"; exit 1; }
done
work=$(mktemp -d)
supervisor=
sink=
servers=
end() {
  kill $supervisor $sink $servers 2> /dev/null
  kill_sender
  wait
  rm -rf "$work"
}
trap end EXIT
cd "$work" || exit 1
. "$top/bench/check.sh"
export OWNER
OWNER=$(id -un)
root=
[ "$(id -u)" = 0 ] && root=so OWNER=nobody
export PASSWD=$work/passwd QMAIL_IDLE_MS=100
queue=$work/var/queue
first_port=$((20000 + $$ % 10000))
printf 'root:x:0:0::/root:/bin/sh\njoe:x:%s:%s::/home/joe:/bin/sh\nann:x:%s:1001::/home/ann:/bin/sh\n' 1000 1000 1001 > passwd
mkdir -p var out own && chmod 711 . && chmod 755 var && chmod 777 out
joe=
if [ -n "$root" ]; then
  chown 1000:1000 own
  joe="setpriv --reuid=1000 --regid=1000 --clear-groups"
  ann="setpriv --reuid=1001 --regid=1001 --clear-groups"
fi
unset QMAIL
export QUEUEDIR=$queue

# the parts of the tour that aren't this directory's
apt-get() { echo "not tried: apt-get $*"; }
adduser() { echo "not tried: adduser $*"; }
make() { command make -s -C "$top" "$@" PREFIX="$work/usr" QMAIL="$program"; }
hostname() { echo h.example; }
id() { echo joe; }
port() { [ "$1" = 25 ] && echo $((first_port)) || echo $((first_port + 1)); }
tcpsvd() { # -u USER ADDRESS PORT COMMAND
  [ -n "$root" ] && exec tcpsvd -u nobody 127.0.0.1 "$(port "$4")" "$5"
  exec tcpsvd 127.0.0.1 "$(port "$4")" "$5"
}
msmtp() { # --host=.. --port=N --from=SENDER RECIPIENT
  command msmtp "$1" --port="$(port "${2#--port=}")" "$3" "$4"
}
systemctl() { # the sender, and a supervisor that starts it anew
  while :; do
    if [ -n "$root" ]; then "$work/usr/lib/qmail/run"; else "$work/usr/bin/qmail-send" "$work/usr/bin/remote-msmtp"; fi &
    echo "$!" > sender.new && mv sender.new sender
    wait "$!"
    command sleep 1
  done > log 2>&1 &
  supervisor=$!
}
journalctl() { cat log; }
sleep() { await "the three mails of the tour" at_rest; }
mutt() { # -f MAILDIR: as joe, who tags all, copies them and quits
  echo "set folder=$work/own spoolfile=$2 record=$work/own/sent postponed=$work/own/postponed mbox_type=mbox
set confirmcreate=no confirmappend=no move=no quit=yes" > rc
  local keys="<tag-pattern>~A<enter><tag-prefix><copy-message>$work/own/copies<enter><exit>"
  HOME=$work/own TERM=xterm timeout 60 $joe script -qec "mutt -n -F $work/rc -R -f $2 -e 'push \"$keys\"'" /dev/null < /dev/null > noise
}

await() { # WHAT COMMAND..: until the command succeeds, at most a minute
  local what=$1
  shift
  for _ in $(seq 300); do
    "$@" > noise 2>&1 && return 0
    command sleep 0.2
  done
  echo "differs: waited in vain for $what"
  bad=1
}

at_rest() { [ "$(qmail audit "$queue" 2>&1)" = "pid 0" ]; }
listens() { : > "/dev/tcp/127.0.0.1/$1"; }

tree() { # PID..: these processes and those below them
  local pid
  for pid in "$@"; do
    echo "$pid"
    tree $(pgrep -P "$pid")
  done
}

kill_sender() { # it and all that it has started, at once
  [ ! -s sender ] || kill -9 $(tree $(cat sender)) 2> /dev/null
}

outside() { # OPTION..: a new host outside
  [ -z "$sink" ] || { kill "$sink"; wait "$sink"; } 2> noise
  rm -f out/*
  timeout 400 smtp-sink ${root:+-u nobody} -d out/m. "$@" 127.0.0.1:$((first_port + 2)) 100 > sink.log 2>&1 &
  sink=$!
  await "the host outside" listens $((first_port + 2))
}

out() { cat out/* 2> noise | sed -n "s/^X-Rcpt-Args: //p" | sort | tr '\n' ' '; }
taken() { # the recipients that the log tells as successes
  awk '/^starting delivery/ { to[$3] = $NF } /^delivery .* success/ { print to[$2] }' log
}
mails() { # USER HEADER: that header of each mail of a user, as Python reads it
  python3 -c '
import mailbox, sys
box = mailbox.Maildir(sys.argv[1], factory=None, create=False)
print(" ".join(sorted(str(mail[sys.argv[2]]) for mail in box)))' "$queue/home/$1/Maildir" "$2"
}

# the tour
PATH=$work/usr/bin:$PATH
outside
sed -n '/^## A mail host/,/^## The/ s/^    //p' "$top/docs/OPERATION.md" | sed "s:/usr/local:$work/usr:g; s:/var/qmail:$work/var:g" > tour
[ "$(wc -l < tour)" -gt 10 ] && [ "$(wc -l < tour)" -le 20 ]
check "the tour has twenty lines at most" "$?" 0
while IFS= read -r line <&4; do
  eval "$line"
  status=$?
  case $line in
    *'smtpfront-qmail &')
      servers="$servers $!"
      await "a port" listens "$(port "$(echo "$line" | grep -o ' [0-9][0-9]* smtp' | tr -dc 0-9)")"
      ;;
    *) check "ends with 0: $line" "$status" 0 ;;
  esac
  case $line in qmail-first-queue*) echo ":127.0.0.1:$((first_port + 2))" > "$queue/control/smtproutes" ;; esac
done 4< tour
check "mutt reads what came in" "$(grep -c '^Subject: comes in' own/copies)" 1
check "and the bounce" "$(grep -c '^<no-such-user@h.example>:$' own/copies)" 1
check "Python reads both" "$(mails joe Subject)" "comes in failure notice"
check "the host outside has what went out" "$(out)" "<bob@example.org> "
check "and its text" "$(cat out/* | sed -n '/^Subject/,$p' | tr '\n' '/')" "Subject: goes out//hello//"
check "the log tells who took it" "$(grep -c 'success: 127.0.0.1_accepted_the_message' log)" 1
check "nobody else reads a mail" "$(stat -c %A "$queue"/home/joe/Maildir/new/* | cut -c 8- | sort -u | tr -d '\n')" "---"
if [ -n "$root" ]; then
  file=$(grep -l '^Subject: comes in' "$queue"/home/joe/Maildir/new/*)
  check "joe reads his mail" "$($joe cat "$file" | grep -c '^Subject: comes in')" 1
  check "and ann doesn't" "$($ann cat "$file" 2>&1 | grep -c denied)" 1
  check "joe may sort it" "$($joe mv "$file" "$queue/home/joe/Maildir/cur/$(basename "$file"):2,S"; echo $?)" 0
  check "but not write his instructions" "$($joe touch "$queue/home/joe/.qmail" 2> noise; echo $?)" 1
fi

# another user, an extension address, relays
printf '&ann@h.example\n&carol@z.example\n' > "$queue/home/joe/.qmail-friends"
mail "to friends" 25 dave@w.example joe-friends@h.example
check "a mail to an extension address is taken" "$?" 0
mail "no relay" 25 dave@w.example erin@w.example 2> noise
check "one to another host isn't, from outside" "$?" 65
await "its deliveries" at_rest
check "ann has it" "$(mails ann Subject)" "to friends"
check "and so has the host outside" "$(out)" "<bob@example.org> <carol@z.example> "

# what the host outside refuses
outside -f rcpt
mail "refused" 587 ann@h.example bob@example.org
await "the bounce" at_rest
check "what is refused for good comes back" "$(grep -l '^msmtp: server message: 500' "$queue"/home/ann/Maildir/new/* | wc -l)" 1
outside -r .
for k in 1 2 3; do mail "later $k" 587 ann@h.example "later$k@example.org"; done
await "three deferrals" eval '[ "$(grep -c "deferral: .*450" log)" -ge 3 ]'
check "what is refused for now stays" "$(qmail audit "$queue" | grep -c S5)" 3

# a kill of all its processes, with mail under way and mail that comes meanwhile
outside -w 2
kill_sender
for k in 4 5 6; do mail "later $k" 587 ann@h.example "later$k@example.org" || check "a mail is taken" "$?" 0; done
await "the next sender" eval '[ "$(grep -c "starting delivery 1:" log)" -ge 2 ]'
kill_sender
await "the one after" at_rest
check "each mail has come" "$(out | tr ' ' '\n' | sort -u | grep -c later)" 6
check "and was told as taken, once" "$(taken | grep later | sort | uniq -c | awk '$1 == 1' | wc -l)" 6
check "and no mail of it came back" "$(mails ann Subject)" "failure notice to friends"
check "no state is left" "$(qmail audit "$queue")" "pid 0"
echo "begun anew after a kill: $(out | tr ' ' '\n' | grep later | sort | uniq -d | wc -l) of 6"

# the tour of README.md, by a user who isn't root, with a queue of his own
{ echo 'sleep() { for _ in $(seq 300); do [ "$(qmail audit spool)" = "pid 0" ] && return; command sleep 0.2; done; }'
  sed -n '/^## A mail to yourself/,/^## A crash/ s/^    \$ //p' "$top/README.md"
  echo 'kill "$!"'; } > own/short
(cd own && HOME=$work/own USER=joe timeout 60 $joe bash short > said 2> noise)
check "the tour of README.md" "$(grep -v '^Received' own/said | tr '\n' '/')" \
  "0/Return-Path: <ann@example.org>/Delivered-To: joe@h.example/Subject: hello//hello/pid 0/"
command -v systemd-analyze > noise && check "systemd takes the unit" "$(systemd-analyze verify "$work"/usr/lib/systemd/system/*.service 2>&1)" ""
[ "$bad" = 0 ] && echo "all as it should be"
exit "$bad"
