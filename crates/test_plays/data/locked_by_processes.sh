# The locks of a queue's members, and the limits that the environment tells, over real processes. Each row has what must come of it;
# those that go otherwise are printed, and how many go as they say. QMAIL is the program; without it that of the parent. flock(1)
# stands in for other processes.

qmail=${QMAIL:-/proc/$PPID/exe}
unset QMAIL_DRAIN_MS QMAIL_IDLE_MS QMAIL_PARENT
work=$(mktemp -d) || exit 1
sender=
trap 'kill $sender 2> /dev/null; rm -rf "$work"' EXIT
root=$work/queue
log=$work/log
right=0

# is NAME GOT WANTED: whether a row went as it should.
is() {
    if [ "$2" = "$3" ]; then
        right=$((right + 1))
    else
        echo "otherwise: $1: $2, and not $3"
    fi
}

# soon COMMAND..: whether it succeeds within twenty seconds.
soon() {
    for k in $(seq 400); do
        "$@" > /dev/null 2>&1 && return 0
        sleep 0.05
    done
    return 1
}

# Who holds a lock.
held() {
    for member in clean lspawn rspawn send; do
        flock -n "$root/lock/$member" true 8>&- 9>&- || printf '%s ' "$member"
    done
}

all_held() { [ "$(held)" = 'clean lspawn rspawn send ' ]; }
none_held() { [ -z "$(held)" ]; }

# says TEXT: whether the log of a sender has this line, once.
says() { [ "$(grep -cx "$1" "$log")" = 1 ]; }

# A sender in the background, that goes on for as long as it is let.
begin() {
    QMAIL_IDLE_MS=50 "$qmail" send "$root" cat --turns 1000000 2> "$log" 8>&- 9>&- &
    sender=$!
}

# end SIGNAL: ends it so, and waits for its children.
end() {
    kill "$1" "$sender"
    wait "$sender" 2> /dev/null
    sender=
}

# each member holds its lock, and goes on to
begin
soon all_held
sleep 0.2
is 'who holds a lock' "$(held)" 'clean lspawn rspawn send '
timeout 20 "$qmail" send "$root" cat --turns 1 2> "$work/err"
is 'a second sender' "$? $(cat "$work/err")" '84 send: another sender has lock/send'
mv "$root/lock" "$root/old"
soon says 'send: lock/send was replaced'
mkdir "$root/lock"
sleep 0.2
is 'a lock that was replaced is told once' "$(cat "$log")" 'send: lock/send was replaced'
rmdir "$root/lock"
mv "$root/old" "$root/lock"
end -TERM
soon none_held
is 'and their ends give the locks back' "$(held)" ''

# a cleaner of an earlier sender
exec 9> "$root/lock/clean"
flock -w 20 9
begin
soon says 'send: waiting for lock/clean'
sleep 0.2
is 'an earlier cleaner is waited for' "$(held) $(cat "$log")" 'clean send  send: waiting for lock/clean'
exec 9>&-
soon all_held
is 'and then its sender goes on' "$(held)" 'clean lspawn rspawn send '
end -TERM
soon none_held

# a cleaner that has its commands before it has its lock, and no sender any more when it has it
printf '3:hi\n,12:Fa@b\000Tb@y\000\000,' | "$qmail" queue - "$root"
number=$(ls "$root/todo")
exec 8> "$root/lock/rspawn"
flock -w 20 8
begin
soon says 'send: waiting for lock/rspawn'
exec 9> "$root/lock/clean"
flock -w 20 9
exec 8>&-
soon says 'clean: waiting for lock/clean'
soon test -e "$root/info/$((number % 23))/$number"
sleep 0.2
end -KILL
exec 9>&-
soon says 'clean: its sender has ended'
soon none_held
is 'a cleaner that is late' "$(ls "$root/todo") $(grep -c 'its sender has ended' "$log")" "$number 1"
printf "todo/$number\\000" > "$work/commands"
QMAIL_PARENT=1 "$qmail" clean "$root" < "$work/commands" > "$work/given" 2> "$work/err"
is 'one of another parent' "$? $(ls "$root/todo") $(cat "$work/given" "$work/err")" "84 $number clean: its sender has ended"
QMAIL_PARENT=$$ "$qmail" clean "$root" < "$work/commands" > "$work/given"
is 'one of this parent' "$? $(ls "$root/todo") $(cat "$work/given")" '0  +'

# refuses WHO WHAT WHY WORD..: a command that can't have its lock.
refuses() {
    name="$1 whose lock/$2 is $3"
    line="84 $1: can't lock lock/$2: $3"
    shift 3
    timeout 20 "$qmail" "$@" < /dev/null > "$work/given" 2> "$work/err"
    is "$name" "$? $(cat "$work/err")" "$line"
}

mv "$root/lock/send" "$work/file"
mkfifo "$root/lock/send"
refuses send send 'not a regular file' send "$root" cat --turns 1
rm "$root/lock/send"
ln -s /dev/null "$root/lock/send"
refuses send send 'not a regular file' send "$root" cat --turns 1
rm "$root/lock/send" "$root/lock/rspawn"
mkdir "$root/lock/rspawn"
refuses send rspawn 'not a regular file' send "$root" cat --turns 1
refuses rspawn rspawn 'not a regular file' rspawn "$root" cat
rm -r "$root/lock"
: > "$root/lock"
refuses clean clean 'Not a directory (os error 20)' clean "$root"
rm "$root/lock"

# limit VARIABLE VALUE STATUS WORD..: what a command says of a value.
limit() {
    name=$1=$2
    export "$1=$2"
    wanted=$3
    shift 3
    timeout 20 "$qmail" "$@" < /dev/null > "$work/given" 2> "$work/err"
    is "$name" "$? $(cat "$work/err")" "$wanted"
    unset QMAIL_DRAIN_MS QMAIL_IDLE_MS
}

limit QMAIL_DRAIN_MS 0 '100 QMAIL_DRAIN_MS is not a number from 1 to 86400000' send "$root" cat --turns 1
limit QMAIL_DRAIN_MS 86400001 '100 QMAIL_DRAIN_MS is not a number from 1 to 86400000' lspawn "$root"
limit QMAIL_IDLE_MS 60001 '100 QMAIL_IDLE_MS is not a number from 0 to 60000' send "$root" cat --turns 1
limit QMAIL_IDLE_MS 60001 '0 ' clean "$root"

# of a new queue, ten turns with rests of 200 milliseconds, and a command that is ended after 300
root=$work/rests
begun=$(date +%s%N)
QMAIL_IDLE_MS=200 timeout 20 "$qmail" send "$root" cat --turns 10 2> "$work/err"
is 'ten turns' "$? $([ $((($(date +%s%N) - begun) / 1000000)) -ge 1000 ] && echo rested)" '0 rested'
mkdir -p "$root/home/j"
echo '|exec sleep 4' > "$root/home/j/.qmail"
printf '3:hi\n,' | QMAIL_DRAIN_MS=300 timeout 20 "$qmail" local "$root" =j =home/j =j = = =localhost =a@x = --uid 1000 > "$work/given"
is 'a command that runs on' "$? $(cat "$work/given")" '111 Command failed with status 0. (#4.3.0)'

echo "$right rows"
