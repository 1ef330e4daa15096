#!/usr/bin/env bash
# bench/refused.sh: injections that can't be done, each into a fresh directory: faulty inputs, directories that are missing
# or can't be written, a full disk, and, if strace is there, each call of an injection failing in turn. Checks the exit
# status, and which state of the number is left: S1 (no file), S2 or S3. Exit status 1 if one isn't as the table of statuses
# in man/qmail-queue.8 says. A case that this machine or user can't make is skipped, and says so. In Debian: the package strace.
set -eu
top=$(cd "$(dirname "$0")/.." && pwd)
work=$(mktemp -d)
chmod 755 "$work"
cp "${QMAIL:-$top/qmail}" "$work/qmail" # where another user can run it
disk=$work/disk
mkdir "$disk"
end() {
  umount "$disk" 2> "$work/noise" || true
  rm -rf "$work"
}
trap end EXIT
bad=0
queue=$work/queue
printf 'Fs@example.org\0Tr@example.org\0\0' > "$work/envelope"
printf 'Subject: hello\n\nhello\n' > "$work/message"
head -c 1000000 /dev/zero | tr '\0' x > "$work/large"

state_of_all() { # what states.sh says of the queue, in one line: pid COUNT and the states
  [ -d "$queue" ] || { echo "pid 0 S1"; return; }
  "$top/bench/states.sh" "$queue" 2> "$work/noise" | awk '
    $1 == "pid" { pids = $2 } $1 == "wrong" { other = other " " $0 } $2 ~ /^S/ { states = states " " $2 }
    END { print "pid " pids (states == "" ? " S1" : states) other }'
}

check() { # WHAT STATUS LEFT FOUND: says whether the status and what is left are as they must be
  local left
  left=$(state_of_all)
  if [ "$2" = "$4" ] && [ "$3" = "$left" ]; then
    printf '%-44s %3d  %s\n' "$1" "$4" "$left"
  else
    printf '%-44s %3d  %s, and not %d  %s\n' "$1" "$4" "$left" "$2" "$3"
    bad=1
  fi
  rm -rf "$work/queue"
}

try() { # WHAT STATUS LEFT MESSAGE COMMAND ..: runs the command with this message
  local status=0
  "${@:5}" < "$4" > "$work/out" 2>&1 || status=$?
  check "$1" "$2" "$3" "$status"
}

inject=("$work/qmail" queue "$work/envelope" "$queue")
printf '%-44s %s\n' "what" "status, and what is left"
try "nothing is amiss" 0 "pid 0 S4" "$work/message" "${inject[@]}"

echo "inputs that are none:"
try "no words" 100 "pid 0 S1" "$work/message" "$work/qmail"
try "a user that is no number" 100 "pid 0 S1" "$work/message" "${inject[@]}" --uid x
printf 'Xs@example.org\0Tr@example.org\0\0' > "$work/bad"
try "an envelope that begins with X" 91 "pid 0 S1" "$work/message" "$work/qmail" queue "$work/bad" "$queue"
printf 'Fs@example.org\0Tr@example.org\0' > "$work/bad"
try "an envelope that ends too early" 54 "pid 0 S1" "$work/message" "$work/qmail" queue "$work/bad" "$queue"
{ printf 'Fs@example.org\0T'; head -c 1003 "$work/large"; printf '\0\0'; } > "$work/bad"
try "an address of 1003 bytes" 11 "pid 0 S1" "$work/message" "$work/qmail" queue "$work/bad" "$queue"
try "no envelope" 54 "pid 0 S1" "$work/message" "$work/qmail" queue "$work/no/envelope" "$queue"
try "a directory as the envelope" 54 "pid 0 S1" "$work/message" "$work/qmail" queue "$work" "$queue"
try "a directory as the message" 54 "pid 0 S1" "$work" "${inject[@]}"
printf '5:hello,3:Fa' > "$work/bad"
try "netstrings that end too early" 54 "pid 0 S1" "$work/bad" "$work/qmail" queue - "$queue"
printf '5:hello;33:Fs@example.org\0Tr@example.org\0\0,' > "$work/bad"
try "a netstring without its comma" 91 "pid 0 S1" "$work/bad" "$work/qmail" queue - "$queue"

echo "directories:"
try "a missing parent of the directory" 63 "pid 0 S1" "$work/message" \
  "$work/qmail" queue "$work/envelope" "$work/no/queue"
for case in "pid 63 pid~0~S1" "mess 64 pid~1~S1" "intd 65 pid~0~S1" "todo 66 pid~0~S3"; do
  read -r dir status left <<< "$case"
  mkdir "$queue" "$queue/$dir"
  if [ "$dir" = mess ]; then rmdir "$queue/mess"; fi
  : > "$queue/a_file"
  rm -rf "${queue:?}/$dir"
  mv "$queue/a_file" "$queue/$dir" # a file stands where the directory would be made
  status_found=0
  "${inject[@]}" < "$work/message" > "$work/out" 2>&1 || status_found=$?
  rm -f "$queue/$dir"
  check "a file in place of $dir" "$status" "${left//\~/ }" "$status_found"
done

as_nobody=()
if [ "$(id -u)" = 0 ]; then as_nobody=(setpriv --reuid 65534 --regid 65534 --clear-groups); fi
if [ "$(id -u)" != 0 ] || "${as_nobody[@]}" true 2> "$work/noise"; then
  for case in "pid 63 pid~0~S1" "mess 64 pid~1~S1" "intd 65 pid~0~S1" "todo 66 pid~0~S3"; do
    read -r dir status left <<< "$case"
    "${inject[@]}" < "$work/message" # makes all directories
    find "$queue" -type f -delete
    chmod -R 777 "$queue"
    [ "$(id -u)" != 0 ] || chown 65534 "$queue" # else it would be another user's
    find "$queue/$dir" -type d -exec chmod 555 {} +
    status_found=0
    "${as_nobody[@]}" "${inject[@]}" < "$work/message" > "$work/out" 2>&1 || status_found=$?
    chmod -R 777 "$queue"
    check "$dir can't be written" "$status" "${left//\~/ }" "$status_found"
  done
else
  echo "skipped: directories that can't be written, since no other user can be taken on"
fi

echo "a full disk:"
full() { # WHAT STATUS LEFT MESSAGE OPTIONS: on a file system in memory with these options
  mount -t tmpfs -o "$5" none "$disk"
  queue=$disk/queue
  inject=("$work/qmail" queue "$work/envelope" "$queue")
  try "$1" "$2" "$3" "$4" "${inject[@]}"
  # what is left is told, and the queue taken away, before
  umount "$disk"
  queue=$work/queue
  inject=("$work/qmail" queue "$work/envelope" "$queue")
}
if mount -t tmpfs none "$disk" 2> "$work/noise"; then
  umount "$disk"
  full "no room for the message" 53 "pid 0 S1" "$work/large" size=256k
  # the file system's root, the queue's, its 11 directories and 92 splits are 105; there each further name counts as one more
  full "no inode for the message" 63 "pid 0 S1" "$work/message" nr_inodes=105
  full "no inode for its second name" 64 "pid 1 S1" "$work/message" nr_inodes=106
  full "no inode for the name in todo" 66 "pid 0 S3" "$work/message" nr_inodes=107
  full "as many inodes as are needed" 0 "pid 0 S4" "$work/message" nr_inodes=108
else
  echo "skipped: this user may not mount a file system"
fi

echo "memory:"
status=0
head -c 100000000 "/dev/zero" | (ulimit -v 50000 && exec "${inject[@]}") > "$work/out" 2>&1 || status=$?
check "a message that is larger than the memory" 0 "pid 0 S4" "$status"

echo "a call that fails:"
fail() { # CALL WHEN STATUS LEFT
  try "$1 $2 fails" "$3" "$4" "$work/message" \
    strace -f -qq -o "$work/strace" -e "trace=$1" -e "inject=$1:error=EIO:when=$2" "${inject[@]}"
}
if command -v strace > "$work/which"; then
  fail link 1 64 "pid 1 S1"
  fail unlink 1 63 "pid 1 S1"
  fail fsync 1 64 "pid 1 S2" # the directory of the name in mess/
  fail fsync 2 53 "pid 0 S1"
  fail fsync 3 53 "pid 0 S1"
  fail link 2 66 "pid 0 S3"
  fail fsync 4 66 "pid 0 S4" # the directory of the name in todo/
  fail unlink 1+ 63 "pid 1 S2"
  fail write 1 53 "pid 0 S1"
  fail write 2 53 "pid 0 S1"
else
  echo "skipped: strace isn't there"
fi
exit "$bad"
