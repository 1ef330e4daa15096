# bench/attack/locks.sh: cases of bench/attack.sh: locks that can't be had or were replaced, a cleaner that is late for its lock, and
# limits that are none. flock(1) stands in for other processes.

start_sender() { # QUEUE LOG: a sender in the background that delivers to cat(1); its number is $sender
  setpriv --reuid=mailqueue --regid=mailqueue --clear-groups env QMAIL_IDLE_MS=50 \
    "$QMAIL" send "$1" cat --turns 1000000 2> "$2" 7>&- 8>&- 9>&- &
  sender=$!
}

inject() { # QUEUE: a message to ann; prints its number
  envelope '' ann@here.example > "$1.envelope"
  as mailqueue "$QMAIL" queue - "$1" < <(
    size=$(stat -c %s "$1.envelope")
    printf '3:hi\n,%s:' "$size"
    cat "$1.envelope"
    printf ,
  ) || return
  ls "$1/todo"
}

is_free() { flock -n "$1/lock/$2" true 7>&- 8>&- 9>&-; } # QUEUE MEMBER
has_line() { grep -qx "$2" "$1"; }                       # FILE LINE
has_none() { [ "$(as mailqueue "$QMAIL" audit "$1" 2> /dev/null)" = 'pid 0' ]; }
all_free() { is_free "$1" send && is_free "$1" clean && is_free "$1" lspawn && is_free "$1" rspawn; }
has_no_lock() { ! grep -q ":$(stat -c %i "$1/lock/$2" 2> /dev/null || echo none) " /proc/locks; } # QUEUE MEMBER: it takes none itself
member_of() { pgrep -P "$1" -f "^qmail $2 "; } # SENDER MEMBER: its number

refused_lock() { # QUEUE MEMBER: whether a sender ends with 84, and names this lock
  local status
  as mailqueue timeout -s KILL 10 "$QMAIL" send "$1" cat --turns 20 2> "$1.log"
  status=$?
  [ "$status" = 84 ] || broken "it ended with $status: $(head -n 1 "$1.log")" || return
  grep -q "^send: can't lock lock/$2: " "$1.log" || broken "it said: $(head -n 1 "$1.log")"
}

case_lock_of_root() { # lock/ and lock/clean were made by root once
  new_queue "$1/queue"
  mkdir "$1/queue/lock"
  (umask 077 && : > "$1/queue/lock/clean")
  refused_lock "$1/queue" send || return
  chown mailqueue: "$1/queue/lock"
  refused_lock "$1/queue" clean
}

case_lock_without_inodes() {
  local count=0
  mkdir "$1/disk"
  mount -t tmpfs -o nr_inodes=160 none "$1/disk" || return
  chmod 755 "$1/disk"
  new_queue "$1/disk/queue"
  as mailqueue "$QMAIL" clean "$1/disk/queue" < /dev/null > "$1/made"
  while : > "$1/disk/$count"; do count=$((count + 1)); done 2> /dev/null
  as mailqueue timeout -s KILL 10 "$QMAIL" send "$1/disk/queue" cat --turns 20 2> "$1/log"
  [ "$?" = 84 ] && grep -q "^send: can't lock lock/send: .*(os error 28)$" "$1/log" || broken "it said: $(head -n 1 "$1/log")"
}

case_lock_on_a_disk_to_be_read() {
  mkdir "$1/disk"
  mount -t tmpfs none "$1/disk" || return
  chmod 755 "$1/disk"
  new_queue "$1/disk/queue"
  as mailqueue "$QMAIL" clean "$1/disk/queue" < /dev/null > "$1/made"
  mount -o remount,ro "$1/disk" || return
  as mailqueue timeout -s KILL 10 "$QMAIL" send "$1/disk/queue" cat --turns 20 2> "$1/log"
  [ "$?" = 84 ] && grep -q "^send: can't lock lock/send: .*(os error 30)$" "$1/log" || broken "it said: $(head -n 1 "$1/log")"
}

case_lock_that_is_no_file() { # a FIFO, a device, a directory
  local member
  new_queue "$1/queue"
  as mailqueue mkdir "$1/queue/lock"
  for member in send clean lspawn rspawn; do
    as mailqueue mkfifo "$1/queue/lock/$member"
    refused_lock "$1/queue" "$member" || return
    rm "$1/queue/lock/$member"
    ln -s /dev/null "$1/queue/lock/$member"
    refused_lock "$1/queue" "$member" || return
    rm "$1/queue/lock/$member"
  done
  rm -f "$1/queue/lock/clean"
  as mailqueue mkfifo "$1/queue/lock/clean"
  as mailqueue timeout -s KILL 10 "$QMAIL" clean "$1/queue" < /dev/null 2> "$1/log"
  [ "$?" = 84 ] || broken "a cleaner with a FIFO said: $(head -n 1 "$1/log")"
}

case_lock_that_was_replaced() { # lock/, and then the whole queue
  local what
  for what in queue/lock queue; do
    rm -rf "$1"/queue*
    new_queue "$1/queue"
    start_sender "$1/queue" "$1/log"
    reaches 10 member_of "$sender" rspawn > /dev/null || broken "no sender" || return
    mv "$1/$what" "$1/queue-old"
    reaches 10 has_line "$1/log" 'send: lock/send was replaced' || broken "nothing was told of $what" || return
    kill "$sender"
    wait "$sender" || :
  done
}

case_cleaner_late_for_its_lock() { # it was stopped before it had its lock, with todo/N in its pipe, and N is accepted again
  local number cleaner again
  new_queue "$1/queue"
  as mailqueue mkdir "$1/queue/lock"
  as mailqueue touch "$1/queue/lock/clean" "$1/queue/lock/rspawn"
  number=$(inject "$1/queue")
  exec 7< "$1/queue/lock/rspawn" 8< "$1/queue/lock/clean"
  flock 7
  start_sender "$1/queue" "$1/log"
  reaches 10 has_line "$1/log" 'send: waiting for lock/rspawn' || broken "the sender doesn't wait" || return
  flock 8
  exec 7<&-
  reaches 10 has_line "$1/log" 'clean: waiting for lock/clean' || broken "the cleaner doesn't wait" || return
  cleaner=$(member_of "$sender" clean)
  kill -STOP "$cleaner"
  reaches 10 test -e "$1/queue/info/$((number % 23))/$number" || broken "nothing was given" || return
  sleep 1
  kill -KILL "$sender"
  wait "$sender"
  exec 8<&-
  start_sender "$1/queue" "$1/log2"
  reaches 10 has_none "$1/queue" || broken "the second generation doesn't work" || return
  kill "$sender"
  wait "$sender"
  reaches 10 all_free "$1/queue" || broken "the second generation doesn't end" || return
  again=$(inject "$1/queue")
  if [ "$again" != "$number" ]; then # the file system gave another number: the name stands for it
    as mailqueue cp "$1/queue/todo/$again" "$1/queue/todo/$number"
  fi
  kill -CONT "$cleaner"
  reaches 10 is_free "$1/queue" clean
  sleep 1
  [ -e "$1/queue/todo/$number" ] || broken "todo/$number was removed after it was accepted"
}

stop_before_lock() { # QUEUE LOG: starts senders until the cleaner of one is stopped before it has its lock
  local tries at words
  for ((tries = 0; tries < 40; tries++)); do
    start_sender "$1" "$2"
    cleaner=
    for ((at = 0; at < 4000; at++)); do
      read -r cleaner _ < "/proc/$sender/task/$sender/children" # it has no newline
      [ -n "$cleaner" ] || continue
      mapfile -d '' words < "/proc/$cleaner/cmdline"
      [ "${words[1]:-}" = clean ] && break
    done 2> /dev/null
    kill -STOP "$cleaner" 2> /dev/null && sleep 0.05 && has_no_lock "$1" clean && return 0
    kill -KILL "$sender" "$cleaner"
    wait "$sender"
    reaches 10 all_free "$1"
  done 2> /dev/null
  return 1
}

case_sender_beside_a_stopped_cleaner() { # it gives nothing before its cleaner has its lock, and is killed then
  local number
  new_queue "$1/queue"
  as mailqueue mkdir "$1/queue/lock"
  stop_before_lock "$1/queue" "$1/log" || broken "no cleaner could be stopped in time" || return
  number=$(inject "$1/queue")
  sleep 3
  [ -z "$(member_of "$sender" lspawn)" ] || broken "it went on without its cleaner" || return
  [ ! -e "$1/queue/info/$((number % 23))/$number" ] || broken "the message was taken up" || return
  kill -KILL "$sender"
  wait "$sender" 2> /dev/null
  start_sender "$1/queue" "$1/log2"
  reaches 10 has_none "$1/queue" || broken "the second generation doesn't work" || return
  kill -CONT "$cleaner"
  sleep 1
  kill "$sender"
  reaches 10 has_line "$1/log" 'clean: its sender has ended' || broken "the cleaner didn't end for want of its sender"
}

case_file_system_without_locks() { # it goes on, and each who has none says so
  local error member status
  needs strace
  for error in ENOLCK EOPNOTSUPP; do
    rm -rf "$1/queue"
    new_queue "$1/queue"
    inject "$1/queue" > "$1/number" || broken "no injection" || return
    as mailqueue timeout -s KILL 40 strace -f -qq -o /dev/null -e trace=flock -e "inject=flock:error=$error" \
      "$QMAIL" send "$1/queue" cat --turns 400 2> "$1/log"
    status=$?
    [ "$status" = 0 ] || broken "$error: it ended with $status: $(tail -n 1 "$1/log")" || return
    for member in send clean lspawn rspawn; do
      has_line "$1/log" "$member: no lock: lock/$member" || broken "$error: nothing was told of $member" || return
    done
    [ -n "$(ls "$1/queue/home/ann/Maildir/new")" ] || broken "$error: nothing was delivered" || return
  done
}

case_limits_that_are_none() {
  local given
  new_queue "$1/queue"
  for given in QMAIL_DRAIN_MS=0 QMAIL_DRAIN_MS=86400001 QMAIL_IDLE_MS=60001 QMAIL_IDLE_MS=1s; do
    as mailqueue env "$given" timeout 10 "$QMAIL" send "$1/queue" cat --turns 1 2> "$1/log"
    [ "$?" = 100 ] && grep -q "^${given%=*} is not a number from " "$1/log" || broken "$given: $(head -n 1 "$1/log")" || return
  done
}
