# bench/attack/clocks.sh: cases of bench/attack.sh: clocks that are wrong for a while. In Debian: the package faketime.

shifted() { # DIR COMMAND..: its clock, but not the monotonic one, is ahead by what DIR/clock says, which may change meanwhile
  local library
  library=$(find /usr/lib -name libfaketime.so.1 | head -n 1)
  [ -n "$library" ] || { echo "missing: libfaketime.so.1"; exit 2; }
  LD_PRELOAD=$library DONT_FAKE_MONOTONIC=1 FAKETIME_DONT_FAKE_MONOTONIC=1 FAKETIME_NO_CACHE=1 NO_FAKE_STAT=1 \
    FAKETIME_TIMESTAMP_FILE=$1/clock "${@:2}"
}

send_deferring() { # DIR: starts a sender whose remote program defers each delivery and counts them
  new_queue "$1/queue" root
  printf '#!/bin/sh\necho try >> %s/tries\nprintf "slater\\n\\0Zlater\\n\\0"\n' "$1" > "$1/later"
  chmod 755 "$1/later"
  echo +0 > "$1/clock"
  QMAIL_IDLE_MS=50 shifted "$1" "$QMAIL" send "$1/queue" "$1/later" --turns 1000000 2> "$1/log" < /dev/null &
}

inject_remote() { # DIR
  envelope a@x ann@there > "$1/envelope"
  echo hello | "$QMAIL" queue "$1/envelope" "$1/queue"
}

tried() { # DIR N: whether there were that many deliveries by now
  [ "$(cat "$1/tries" 2> /dev/null | wc -l)" -ge "$2" ]
}

ahead() { # DIR: the clock is ten years ahead for three seconds
  echo +10y > "$1/clock"
  sleep 3
  echo +0 > "$1/clock"
  sleep 1
}

pass() { # DIR: over seven minutes, in steps that are far below one, after which a message that was deferred once is due
  local seconds
  for ((seconds = 10; seconds <= 450; seconds += 10)); do
    echo "+$seconds" > "$1/clock"
    sleep 0.25
  done
}

case_clock_ahead_for_seconds() { # a message that was deferred is tried again at its time, and isn't too old
  send_deferring "$1"
  inject_remote "$1"
  reaches 20 tried "$1" 1 || broken "it wasn't tried: $(tail -n 1 "$1/log")" || return
  ahead "$1"
  tried "$1" 2 && broken "it was tried again too early" && return 1
  pass "$1"
  reaches 10 tried "$1" 2 || broken "it wasn't tried again" || return
  ! grep -q bounce "$1/log" || broken "it is a bounce" || return
  [ "$(grep -c '^clock: over a minute ahead' "$1/log")" = 1 ] || broken "it isn't told once"
}

case_clock_that_was_ahead() { # a message that comes after that isn't too old at its first try, and is tried again at its time
  send_deferring "$1"
  envelope a@x ann@here.example > "$1/envelope"
  echo hello | "$QMAIL" queue "$1/envelope" "$1/queue"
  reaches 20 grep -q 'end msg' "$1/log" || broken "the sender isn't at work" || return # and has read the clock
  ahead "$1"
  inject_remote "$1"
  reaches 20 tried "$1" 1 || broken "it wasn't tried: $(tail -n 1 "$1/log")" || return
  sleep 1
  ! grep -q bounce "$1/log" || broken "it is a bounce" || return
  pass "$1"
  reaches 10 tried "$1" 2 || broken "it wasn't tried again, and ahead $(grep -c ^clock "$1/log") times: $(tail -n 1 "$1/log")"
}
