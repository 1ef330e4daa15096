# bench/attack/triggers.sh: cases of bench/attack.sh: what wakes a sender that rests for a minute, while nobody may wait for it.

woken_sender() { # QUEUE MILLISECONDS: a sender in the background that rests for so long, once its FIFO is there; its number is $sender
  echo ./Maildir/ > "$1/home/ann/.qmail"
  setpriv --reuid=mailqueue --regid=mailqueue --clear-groups env QMAIL_IDLE_MS="$2" \
    "$QMAIL" send "$1" cat --turns 1000000 2> "$1.log" &
  sender=$!
}

post() { # QUEUE: a message to ann, in at most five seconds
  envelope '' ann@here.example > "$1.envelope.$BASHPID"
  as mailqueue timeout 5 "$QMAIL" queue "$1.envelope.$BASHPID" "$1" <<< hello
}

has_mails() { [ "$(find "$1/home/ann/Maildir/new" -type f | wc -l)" = "$2" ]; } # QUEUE N

case_woken_sender() { # again and again, and by an injector beside others
  local k
  new_queue "$1/queue"
  woken_sender "$1/queue" 60000
  reaches 10 test -p "$1/queue/lock/trigger" || broken "there is no FIFO" || return
  for k in 1 2 3 4 5; do
    sleep 1
    post "$1/queue" || broken "injection $k ended with $?" || return
    reaches 5 has_mails "$1/queue" "$k" || broken "mail $k didn't come" || return
  done
  for k in 1 2 3 4 5 6 7 8; do post "$1/queue" & done
  reaches 10 has_mails "$1/queue" 13 || broken "of eight at once one didn't come"
}

case_stopped_sender() { # whose FIFO somebody has filled
  local filler
  new_queue "$1/queue"
  woken_sender "$1/queue" 60000
  reaches 10 test -p "$1/queue/lock/trigger" || broken "there is no FIFO" || return
  sleep 1
  kill -STOP "$sender"
  perl -MFcntl -e 'sysopen my $fifo, $ARGV[0], O_RDWR | O_NONBLOCK or die; 1 while syswrite $fifo, "x" x 4096; sleep 60' \
    "$1/queue/lock/trigger" &
  filler=$!
  sleep 1
  post "$1/queue" || broken "an injection ended with $?" || return
  kill "$filler"
  kill -CONT "$sender"
  reaches 10 has_mails "$1/queue" 1 || broken "its mail didn't come"
}

case_trigger_that_is_none() { # a file, or a directory: it looks by itself
  local kind
  for kind in ": >" mkdir; do
    new_queue "$1/queue"
    mkdir -p "$1/queue/lock"
    rm -rf "$1/queue/lock/trigger"
    eval "$kind \"\$1/queue/lock/trigger\""
    chown -R mailqueue: "$1/queue/lock"
    woken_sender "$1/queue" 500
    sleep 2
    post "$1/queue" || broken "an injection ended with $?" || return
    reaches 5 has_mails "$1/queue" 1 || broken "its mail didn't come" || return
    kill "$sender"
    wait "$sender" 2> /dev/null
    rm -rf "$1/queue"
  done
}

case_unreadable_in_todo() { # 300 files that can't be opened, and a mail behind them
  local k
  new_queue "$1/queue"
  mkdir -p "$1/queue/todo"
  for ((k = 9000000100; k < 9000000400; k++)); do ln -s "$k" "$1/queue/todo/$k"; done
  chown -hR mailqueue: "$1/queue/todo"
  woken_sender "$1/queue" 1000
  reaches 30 grep -q '^alert: left 9000000399$' "$1/queue.log" || broken "they weren't all tried" || return
  for k in 1 2 3; do
    post "$1/queue" || broken "injection $k ended with $?" || return
    reaches 10 has_mails "$1/queue" "$k" || broken "mail $k didn't come" || return
  done
}
