# Local deliveries with commands of the system in a real home, and the remote spawner over programs of the system. Each row has
# what must come of it: the exit status, and the bytes that are given, as a format of printf(1). The rows that go otherwise are
# printed, and how many go as they say. QMAIL is the program; without it that of the parent.

qmail=${QMAIL:-/proc/$PPID/exe}
unset QMAIL_DRAIN_MS
work=$(mktemp -d) || exit 1
trap 'rm -rf "$work"' EXIT
root=$work/queue
right=0

# A new queue with message 1 in it, and the home of j with a maildir.
begin() {
    rm -rf "$root"
    mkdir -p "$root/home/j/Maildir/tmp" "$root/home/j/Maildir/new" "$root/mess/1"
    printf 'hi\n' > "$root/mess/1/1"
}

# is STATUS WANTED GIVEN: whether a row's program ended with the status that it should, and gave these bytes.
is() {
    if [ "$1" = "$2" ] && printf "$3" | cmp -s - "$work/given"; then
        right=$((right + 1))
    else
        echo "otherwise: $1 $(cat -v "$work/given"), and not $2 $3"
    fi
}

# local_row INSTRUCTIONS STATUS GIVEN: a delivery of `hi` to j@localhost by these instructions, and else into the maildir.
local_row() {
    begin
    [ -z "$1" ] || printf "$1" > "$root/home/j/.qmail"
    printf '3:hi\n,' | "$qmail" local "$root" =j =home/j =j = = =localhost =a@x =./Maildir/ --uid 1000 > "$work/given"
    is $? "$2" "$3"
}

# remote_row PROGRAM REQUESTS STATUS GIVEN: the spawner that has this program.
remote_row() {
    begin
    printf "$2" | "$qmail" rspawn "$root" "$1" > "$work/given" 2> "$work/noise"
    is $? "$3" "$4"
}

local_row '' 0 'did 1+0+0\n'
local_row '|test "$(cat)" = hi\n' 0 'did 0+0+1\n'
local_row '|exit 99\n./nosuch/\n' 0 'did 0+0+1\n'
local_row './Maildir/\n|exit 100\n' 100 'Command failed with status 100. (#5.3.0)\n'
local_row '|exec kill -9 $$\n' 111 'Command failed with status 0. (#4.3.0)\n'
local_row '|exec ./none 2>&1\n' 111 'Command failed with status 127. (#4.3.0)\n'
local_row './nosuch/\n' 111 'Temporary error on maildir delivery. (#4.3.0)\n'

# what printf(1) prints of the recipient's domain is what a program tells
remote_row /usr/bin/printf '\0001/1\000a@x\000b@r\\0Kok\\0\000' 0 'x\000Kok\000'
remote_row /usr/bin/printf 'w1/1\000\000b@sno\\0Zx\\0\000' 0 'xwZnox\000'
remote_row /bin/false '\0001/1\000a@x\000b@y\000' 0 'x\000DUnable to run qmail-remote.\n\000'
remote_row "$work/none" '\0001/1\000a@x\000b@y\000' 0 'x\000Zqmail-remote crashed.\n\000'
# what a program of its own tells: descriptor 2, and what its input is, by its links and its size
printf '#!/bin/sh\nprintf "r\\0K%%s %%s\\0" "$(readlink /proc/$$/fd/2)" "$(stat -L -c %%h-%%s /dev/stdin)"\n' > "$work/told"
chmod +x "$work/told"
remote_row "$work/told" '\0001/1\000a@x\000b@y\000' 0 'x\000K/dev/null 0-3\000'
remote_row /bin/true '\0002/25\000a@x\000b@y\000' 0 'x\000ZUnable to open the message. (#4.3.0)\000'
remote_row /bin/true '\0001/1\000a@x\000b@y' 0 'x'

echo "$right rows"
