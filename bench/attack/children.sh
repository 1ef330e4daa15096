# bench/attack/children.sh: cases of bench/attack.sh: programs of others whose message is cut, whose children outlive them, which run on
# past their limit, or whose name looks like an option; and SIGCHLD that is ignored. The storm wants msmtp and, of postfix, smtp-sink.

text_of() { # BYTES: a message whose last line tells that it is whole
  printf 'Subject: whole\n\n'
  head -c "$1" /dev/zero | tr '\0' x | fold -w 70
  printf '\nthe last line\n'
}

cut_files() { # FILE..: those whose last lines haven't the message's last one
  local file
  for file in "$@"; do
    [ ! -e "$file" ] || tail -n 3 "$file" | grep -q '^the last line' || echo "$file of $(stat -c %s "$file") bytes"
  done
}

program_of() { # FILE: a remote program of standard input, in that file
  { echo '#!/bin/sh'; cat; } > "$1"
  chmod 755 "$1"
}

one_message() { # QUEUE: message 1, put there by hand
  mkdir -p "$1/mess/1"
  printf 'hi\n' > "$1/mess/1/1"
  chown -R mailqueue: "$1"
}

spawned() { # SECONDS QUEUE PROGRAM DOMAIN: what the remote spawner answers within that time
  printf '\0001/1\0a@x\0b@%s\0' "$4" | as mailqueue timeout -s KILL "$1" "$QMAIL" rspawn "$2" -- "$3" | tr '\0' '|'
}

local_delivery() { # SECONDS QUEUE: a delivery of `hi` to ann, within that time
  printf '3:hi\n,' | as mailqueue timeout -s KILL "$1" "$QMAIL" local "$2" =ann =home/ann =ann = = =here.example =a@x =./Maildir/ --uid 1000
}

storm_sender() { # DIR: senders, one after the other
  export QUEUEDIR=$1/queue QMAIL_IDLE_MS=20
  while [ ! -e "$1/calm" ]; do
    as mailqueue "$QMAIL" send "$1/queue" "$CONTRIB/remote-msmtp" --turns 1000000 2>> "$1/log"
    sleep 0.05
  done
}

storm_injector() { # DIR: messages of 5 MB, as long as few are in the queue
  while [ ! -e "$1/calm" ]; do
    if [ "$(find "$1/queue/mess" -type f 2> /dev/null | wc -l)" -lt 3 ]; then
      as mailqueue "$QMAIL" queue "$1/envelope" "$1/queue" < "$1/message" 2>> "$1/log"
    fi
    sleep 0.1
  done
}

storm_copies() { # DIR: the files into which a command, the server and a maildir got a message
  find "$1/took" "$1/sink" "$1/queue/home/ann/Maildir/new" -type f
}

sift() { # DIR: takes away the copies that are whole, and notes where they were
  local file
  for file in $(storm_copies "$1"); do
    [ -n "$(cut_files "$file")" ] || { rm -f "$file" && echo "$file" >> "$1/whole"; }
  done
}

few_programs() { [ "$(pgrep -c '^msmtp')" -lt 8 ]; }
no_more_programs() { ! pgrep -f 'msmtp|rspawn|exe local|cat ' > /dev/null; }

storm_victims() { # the members or deliveries of a kind; WHAT is rspawn, local, send or all of them
  case $1 in
    rspawn) pgrep -f '^qmail rspawn ' ;;
    local) pgrep -f '^/proc/[0-9a-z]*/exe local ' ;;
    send) pgrep -f "^$QMAIL send " ;;
    all) storm_victims rspawn; storm_victims local; storm_victims send ;;
  esac
}

storm_kill() { # DIR KIND: kills those of that kind as soon as there are some, for a second or two, and notes that
  local asked
  for ((asked = 0; asked < 10; asked++)); do
    kill -9 $(storm_victims "$2") 2> /dev/null && echo "$2" >> "$1/killed" && return
    sleep 0.1
  done
  return 1
}

storm_hits() { # DIR: whether 300 kills hit someone, and each kind some
  local kind
  [ "$(wc -l < "$1/killed")" = 300 ] || broken "$(wc -l < "$1/killed") of 300 kills hit someone" || return
  for kind in rspawn local send all; do
    [ "$(grep -cx "$kind" "$1/killed")" -ge 20 ] || broken "$(grep -cx "$kind" "$1/killed") kills of $kind" || return
  done
}

limit_storm_of_kills=900
case_storm_of_kills() { # whoever feeds a program is killed 300 times, and no copy is cut
  local port=$((20000 + RANDOM % 10000)) kinds=(rspawn local send all rspawn local) kill place
  PATH=$PATH:/usr/sbin
  needs msmtp smtp-sink
  new_queue "$1/queue"
  mkdir "$1/took" "$1/sink"
  chown mailqueue: "$1/took"
  chown mailuser: "$1/sink"
  chmod 755 "$1"
  : > "$1/log"
  : > "$1/killed"
  chmod 666 "$1/log"
  echo ":127.0.0.1:$port" > "$1/queue/control/smtproutes"
  printf './Maildir/\n|cat > %s/took/$$\n' "$1" > "$1/queue/home/ann/.qmail"
  chown mailqueue: "$1/queue/control/smtproutes" "$1/queue/home/ann/.qmail"
  text_of 5000000 > "$1/message"
  envelope a@x ann@here.example b@y > "$1/envelope"
  as mailuser smtp-sink -d "$1/sink/m." "127.0.0.1:$port" 100 > /dev/null 2>&1 &
  storm_injector "$1" &
  storm_sender "$1" &
  for ((kill = 0; kill < 300; kill++)); do
    sleep "0.$((RANDOM % 200 + 100))"
    storm_kill "$1" "${kinds[RANDOM % 6]}" || storm_kill "$1" send # all is deferred: the next sender tries it at once
    [ $((kill % 10)) != 0 ] || sift "$1"
    [ "$(storm_copies "$1" | wc -l)" -lt 60 ] || break # of 5 MB
    reaches 20 few_programs
  done
  : > "$1/calm"
  pkill -9 -f "^$QMAIL send "
  reaches 40 no_more_programs || broken "programs run on" || return
  sift "$1"
  [ -z "$(storm_copies "$1")" ] || broken "cut: $(storm_copies "$1" | wc -l), one of them $(cut_files $(storm_copies "$1") | head -n 1)" || return
  storm_hits "$1" || return
  for place in took sink new; do
    grep -q "/$place/" "$1/whole" || broken "nothing came into $place" || return
  done
  # a program that was killed as it made an input has left an empty file
  [ -z "$(find "$1/queue" -maxdepth 1 -name 'input.*' -size +0)" ] || broken "a part of a message is left: $(ls "$1/queue")"
}

terminate() { # DIR ROUND: ends a sender and its spawners by TERM, as soon as two deliveries began, or when their programs wait
  local what=4 log=$1/log.$2
  [ $(($2 % 2)) = 0 ] || what=2
  rm -f "$1"/began/*
  as mailqueue env QMAIL_IDLE_MS=20 "$QMAIL" send "$1/queue" "$1/remote" --turns 1000000 2> "$log" &
  if [ "$what" = 4 ]; then
    reaches 20 has_files "$1/began" 2 || broken "no program began" || return
  else
    reaches 20 grep -q 'starting delivery 2' "$log" || broken "no delivery began" || return
    sleep "0.0$((RANDOM % 10))"
  fi
  pkill -TERM -f "^$QMAIL send |^qmail (l|r)spawn "
  wait "$!"
  ! grep -q '^delivery' "$log" || return 0 # too late to tell
  echo "$what" >> "$1/hits"
}

has_files() { [ "$(ls "$1" | wc -l)" -ge "$2" ]; } # DIR NUMBER

limit_terminated_while_it_feeds=240
case_terminated_while_it_feeds() { # TERM to a sender and its spawners: a program takes the whole message or nothing
  local round
  new_queue "$1/queue"
  mkdir "$1/took" "$1/began"
  chmod 777 "$1/took" "$1/began"
  program_of "$1/remote" <<< ": > $1/began/remote; sleep 0.7; cat > $1/took/remote.\$\$; printf 'r\0Kok\n\0'"
  echo "|: > $1/began/command; sleep 0.7; cat > $1/took/command.\$\$" > "$1/queue/home/ann/.qmail"
  text_of 3200000 > "$1/message"
  envelope a@x ann@here.example b@y > "$1/envelope"
  : > "$1/hits"
  for ((round = 0; round < 40; round++)); do
    if ! as mailqueue "$QMAIL" audit "$1/queue" 2> /dev/null | grep -q 'S[45]'; then
      as mailqueue "$QMAIL" queue "$1/envelope" "$1/queue" < "$1/message" || broken "no injection" || return
    fi
    terminate "$1" "$round" || return
    reaches 20 no_more_feeding || broken "programs run on" || return
    [ -z "$(cut_files "$1"/took/*)" ] || broken "cut in round $round: $(cut_files "$1"/took/* | head -n 2 | tr '\n' ' ')" || return
    rm -f "$1"/took/*
  done
  [ "$(grep -c 2 "$1/hits")" -ge 10 ] && [ "$(grep -c 4 "$1/hits")" -ge 10 ] || broken "of 40 only $(wc -l < "$1/hits") came in time"
}

no_more_feeding() { ! pgrep -f 'began/|spawn|exe local ' > /dev/null; }

case_cut_by_a_limit() { # a command that reads late is ended by its delivery, before it takes a part of the message
  local given
  new_queue "$1/queue"
  mkdir -p "$1/queue/mess/1"
  text_of 320000 > "$1/queue/mess/1/1"
  printf '|sleep 2; cat > %s/taken\n' "$1/queue" > "$1/queue/home/ann/.qmail"
  chown -R mailqueue: "$1/queue"
  given=$(printf '\0001/1\0a@x\0ann@here.example\0' | as mailqueue env QMAIL_DRAIN_MS=1000 timeout -s KILL 30 "$QMAIL" lspawn "$1/queue" | tr '\0' '|')
  sleep 3
  [ ! -e "$1/queue/taken" ] || broken "it took $(stat -c %s "$1/queue/taken") bytes" || return
  case $given in *'Command failed with status 0. (#4.3.0)'*) ;; *) broken "it answered: $given" ;; esac
}

case_held_by_a_child_of_a_command() {
  local begun=$SECONDS given
  new_queue "$1/queue"
  echo '|sleep 45 & exit 0' > "$1/queue/home/ann/.qmail"
  given=$(local_delivery 30 "$1/queue")
  [ "$given" = 'did 0+0+1' ] && [ $((SECONDS - begun)) -lt 10 ] || broken "after $((SECONDS - begun)) s: $given" || return
  ! pgrep -f 'sleep 45' > /dev/null || broken "its child runs on"
}

case_held_by_who_left_the_group() {
  local begun=$SECONDS given
  new_queue "$1/queue"
  echo '|setsid sleep 45 & sleep 0.1' > "$1/queue/home/ann/.qmail"
  given=$(local_delivery 30 "$1/queue")
  [ "$given" = 'did 0+0+1' ] && [ $((SECONDS - begun)) -lt 10 ] || broken "after $((SECONDS - begun)) s: $given"
}

case_held_after_a_kill() { # the next sender doesn't wait for a child of a remote program
  local begun sender
  new_queue "$1/queue"
  program_of "$1/remote" <<< "sleep 45 & : > $1/queue/runs; printf 'r\\0Kok\\n\\0'"
  envelope '' b@y > "$1/envelope"
  echo hi | as mailqueue "$QMAIL" queue "$1/envelope" "$1/queue" || return
  as mailqueue env QMAIL_IDLE_MS=20 "$QMAIL" send "$1/queue" "$1/remote" --turns 1000000 2> /dev/null &
  reaches 20 test -e "$1/queue/runs" || broken "it didn't begin" || return
  pkill -9 -f "^$QMAIL send "
  begun=$SECONDS
  reaches 20 flock -n "$1/queue/lock/rspawn" true || broken "it is held for over 20 s" || return
  [ $((SECONDS - begun)) -lt 10 ] || broken "it was held for $((SECONDS - begun)) s"
}

case_group_past_its_limit() { # the limit ends what a remote program has started too
  local given
  new_queue "$1/queue"
  one_message "$1/queue"
  program_of "$1/remote" <<< "(sleep 3; : > $1/queue/late) & wait"
  given=$(QMAIL_DRAIN_MS=1000 spawned 20 "$1/queue" "$1/remote" y)
  sleep 3
  [ ! -e "$1/queue/late" ] || broken "what it had started ran on" || return
  case $given in *'Zqmail-remote crashed.'*) ;; *) broken "it answered: $given" ;; esac
}

case_program_like_an_option() { # `--fork` as the remote program runs no recipient's domain
  new_queue "$1/queue"
  one_message "$1/queue"
  program_of "$1/domain" <<< ": > $1/queue/ran"
  spawned 20 "$1/queue" --fork "$1/domain" > "$1/given"
  [ ! -e "$1/queue/ran" ] || broken "the recipient's domain was run" || return
  grep -q 'Zqmail-remote crashed.' "$1/given" || broken "it answered: $(cat "$1/given")"
}

case_child_signals_ignored() { # a process that is told no end of a child starts none
  local status
  new_queue "$1/queue"
  as mailqueue timeout -s KILL 20 env --ignore-signal=CHLD "$QMAIL" send "$1/queue" cat --turns 20 2> "$1/log"
  status=$?
  [ "$status" = 84 ] && grep -q '^SIGCHLD is ignored' "$1/log" || broken "it ended with $status: $(head -n 1 "$1/log")" || return
  printf '3:hi\n,' | as mailqueue env --ignore-signal=CHLD "$QMAIL" local "$1/queue" =ann =home/ann =ann = = =here.example =a@x =./Maildir/ \
    --uid 1000 2> "$1/log"
  status=$?
  [ "$status" = 111 ] && grep -q '^SIGCHLD is ignored' "$1/log" || broken "a delivery ended with $status"
}

most_memory() { # DIR N: the most kB that a remote spawner had which was given message N three times, and has its programs wait
  local spawner at
  rm -f "$1"/began/*
  mkfifo "$1/requests"
  as mailqueue "$QMAIL" rspawn "$1/queue" -- "$1/remote" < "$1/requests" > "$1/answers" &
  exec 6> "$1/requests"
  rm "$1/requests"
  for at in 0 1 2; do
    printf "\\00$at%s\\0a@x\\0b@y\\0" "$2/$2" >&6
    reaches 20 has_files "$1/began" $((at + 1)) || broken "no program began" || return
  done
  spawner=$(pgrep -f '^[^ ]*qmail rspawn ' | tail -n 1)
  awk '/^VmHWM/ { print $2 }' "/proc/$spawner/status"
  : > "$1/go"
  exec 6>&-
  wait
  rm "$1/go"
  [ "$(grep -ao Kok "$1/answers" | wc -l)" = 3 ] || broken "it answered: $(tr '\0' '|' < "$1/answers")"
}

most_memory_of_local() { # DIR N: the most kB that a delivery of message N to a command had
  { printf '%s:' "$(stat -c %s "$1/queue/mess/$2/$2")" && cat "$1/queue/mess/$2/$2" && printf ,; } > "$1/netstring"
  as mailqueue "$QMAIL" local "$1/queue" =ann =home/ann =ann = = =here.example =a@x =./Maildir/ --uid 1000 < "$1/netstring" > "$1/given" || return
  cat "$1/took"
}

limit_memory_of_a_large_message=180
case_memory_of_a_large_message() { # twice at most: in a remote spawner, however many programs wait with theirs, and in a local delivery
  local most small large
  new_queue "$1/queue"
  mkdir -p "$1/queue/mess/1" "$1/queue/mess/2"
  printf 'Subject: small\n\nhi\n' > "$1/queue/mess/1/1"
  text_of 100000000 > "$1/queue/mess/2/2"
  mkdir "$1/began"
  chmod 777 "$1/began"
  program_of "$1/remote" <<< ": > $1/began/\$\$; while [ ! -e $1/go ]; do sleep 0.1; done; cat > /dev/null; printf 'r\\0Kok\\n\\0'"
  # of all processes here the delivery has the most
  echo "|cat > /dev/null; awk '/^VmHWM/ { if (\$2 > most) most = \$2 } END { print most }' /proc/[0-9]*/status > $1/took 2> /dev/null; exit 0" \
    > "$1/queue/home/ann/.qmail"
  chown -R mailqueue: "$1/queue"
  : > "$1/took"
  chmod 666 "$1/took"
  most=$((2 * $(stat -c %s "$1/queue/mess/2/2") / 1024 + 4000))
  small=$(most_memory "$1" 1) && large=$(most_memory "$1" 2) || broken "$small $large" || return
  [ $((large - small)) -lt "$most" ] || broken "a remote spawner took $small and $large kB" || return
  small=$(most_memory_of_local "$1" 1) && large=$(most_memory_of_local "$1" 2) || broken "no delivery: $(cat "$1/given")" || return
  [ $((large - small)) -lt "$most" ] || broken "a delivery took $small and $large kB"
}

case_no_room_for_an_input() { # what can't be given whole isn't given
  local given
  mkdir "$1/disk"
  mount -t tmpfs -o size=400k none "$1/disk" || return
  chmod 755 "$1/disk"
  new_queue "$1/disk/queue"
  mkdir -p "$1/disk/queue/mess/1"
  text_of 250000 > "$1/disk/queue/mess/1/1"
  chown -R mailqueue: "$1/disk/queue"
  mkdir "$1/taken"
  chmod 777 "$1/taken"
  program_of "$1/remote" <<< "cat > $1/taken/it; printf 'r\\0Kok\\n\\0'"
  given=$(spawned 20 "$1/disk/queue" "$1/remote" y)
  [ -z "$(cut_files "$1/taken/it")" ] || broken "it took $(stat -c %s "$1/taken/it") bytes" || return
  case $given in *Kok*) [ -e "$1/taken/it" ] || broken "it is told as taken" ;; esac
}
