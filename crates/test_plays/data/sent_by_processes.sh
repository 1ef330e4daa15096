# A message is sent from a new queue: to the maildir of a user, and by cat(1), which refuses it, so that a bounce comes to its
# sender's maildir. Senders are started one after the other, at most 40, until an audit finds nothing. QMAIL is the program;
# without it that of the parent.

qmail=${QMAIL:-/proc/$PPID/exe}
unset QMAIL_DRAIN_MS QMAIL_IDLE_MS
work=$(mktemp -d) || exit 1
trap 'rm -rf "$work"' EXIT
root=$work/queue

mkdir -p "$root/users" "$root/home/u/Maildir/tmp" "$root/home/u/Maildir/new"
printf '+u:u:1000:1000:home/u:-::\n.\n' > "$root/users/assign"
echo ./Maildir/ > "$root/home/u/.qmail-default"
printf '3:hi\n,34:Fu1@localhost\000Tu2@localhost\000Tb@y\000\000,' | "$qmail" queue - "$root" || exit 1

sent=0
while [ $sent -lt 40 ]; do
    sent=$((sent + 1))
    "$qmail" send "$root" cat --turns 2000 2> /dev/null || exit 1
    "$qmail" audit "$root" > "$work/audit"
    echo 'pid 0' | cmp -s - "$work/audit" && break
done
cat "$work/audit"

message=0
bounce=0
for file in "$root/home/u/Maildir/new"/*; do
    if sed 1d "$file" | grep -qx 'Delivered-To: u2@localhost'; then
        message=1
    fi
    if sed 1d "$file" | grep -qx 'Delivered-To: u1@localhost' && grep -qx '<b@y>:' "$file"; then
        bounce=1
    fi
done
echo "message $message, bounce $bounce"
