# bench/attack/storms.sh: cases of bench/attack.sh: bench/storm.sh, small, with a copy of the device on ext4 and on xfs; and writes of
# the log that a signal interrupts. In Debian: the packages xfsprogs and strace.

limit_storm_over_devices=420
case_storm_over_devices() { # what was accepted is delivered, told of in a bounce, or pending in the copy
  needs losetup mkfs.ext4 mkfs.xfs
  mkdir "$1/tmp"
  TMPDIR=$1/tmp "$top/bench/storm.sh" 26 8 1 > "$1/told" 2>&1 || broken "$(grep -v '^ok' "$1/told" | tail -n 3 | tr '\n' ' ')" || return
  ! grep 'skipped\|without copies' "$1/told" || exit 2
  [ "$(grep -c 'ok: recipients lost in copy' "$1/told")" = 2 ] || broken "not two copies were looked at"
}

delivered_with() { # DIR WORDS..: what a sender tells, started by these words, when it delivers a message to ann; its numbers are N
  rm -rf "$1/queue"
  new_queue "$1/queue"
  echo hello | as mailqueue "$QMAIL" queue "$1/envelope" "$1/queue" || broken "no injection" || return
  : > "$1/log"
  chmod 666 "$1/log"
  as mailqueue timeout -s KILL 40 "${@:2}" "$QMAIL" send "$1/queue" cat --turns 400 2>> "$1/log" || broken "it ended with $?" || return
  [ -n "$(ls "$1/queue/home/ann/Maildir/new")" ] || broken "nothing was delivered" || return
  sed 's/[0-9][0-9]*/N/g' "$1/log"
}

case_writes_of_the_log_interrupted() { # no line is lost, and nothing ends
  needs strace
  envelope a@x ann@here.example > "$1/envelope"
  delivered_with "$1" env > "$1/plain" || broken "$(cat "$1/plain")" || return
  delivered_with "$1" strace -f -qq -o "$1/queue/home/calls" -P "$1/log" -e trace=write -e inject=write:error=EINTR:when=1+2 > "$1/interrupted" \
    || broken "$(cat "$1/interrupted")" || return
  [ "$(grep -c EINTR "$1/queue/home/calls")" -ge 5 ] || broken "only $(grep -c EINTR "$1/queue/home/calls") writes were interrupted" || return
  cmp -s "$1/plain" "$1/interrupted" || broken "lines differ: $(diff "$1/plain" "$1/interrupted" | head -n 3 | tr '\n' ' ')"
}
