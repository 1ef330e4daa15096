# bench/attack/owners.sh: cases of bench/attack.sh: who works on a queue that isn't his, and files that aren't what they look like.

untouched() { # QUEUE LIST: whether the queue has what it had, and nothing of root's
  [ -z "$(find "$1" -user root)" ] || broken "root has files there: $(find "$1" -user root | head -n 3 | tr '\n' ' ')" || return
  find "$1" | sort | cmp -s - "$2" || broken "something was made: $(find "$1" | sort | comm -13 "$2" - | head -n 3 | tr '\n' ' ')"
}

refused_by() { # DIR STATUS WORDS..: a command of root's over mailqueue's queue ends with that status and a line, and touches nothing
  local status
  new_queue "$1/queue"
  find "$1/queue" | sort > "$1/list"
  envelope a@x ann@here.example > "$1/envelope"
  printf '5:hello,' | timeout 10 "$QMAIL" "${@:3}" > "$1/out" 2> "$1/log"
  status=$?
  untouched "$1/queue" "$1/list" || return
  [ "$status" = "$2" ] || broken "it ended with $status" || return
  [ "$(cat "$1/log")" = "$3: $1/queue is user 61001's, and this is user 0" ] || broken "it told: $(head -n 2 "$1/log")"
}

case_queue_by_root() { refused_by "$1" 63 queue "$1/envelope" "$1/queue"; }

case_send_by_root() { refused_by "$1" 84 send "$1/queue" true --turns 3; }

case_clean_by_root() { refused_by "$1" 54 clean "$1/queue"; }

case_lspawn_by_root() { refused_by "$1" 54 lspawn "$1/queue"; }

case_rspawn_by_root() { refused_by "$1" 54 rspawn "$1/queue" true; }

case_local_by_root() { refused_by "$1" 111 local "$1/queue" =ann =home/ann =ann = = =here.example =a@x =./Maildir/; }

case_audit_by_root() { # looks, and makes nothing
  local status
  new_queue "$1/queue"
  find "$1/queue" | sort > "$1/list"
  "$QMAIL" audit "$1/queue" > "$1/out"
  status=$?
  untouched "$1/queue" "$1/list" || return
  [ "$status" = 54 ] || broken "it ended with $status" || return
  envelope a@x ann@here.example > "$1/envelope"
  echo hello | as mailqueue "$QMAIL" queue "$1/envelope" "$1/queue" || broken "the owner's injection ended with $?" || return
  "$QMAIL" audit "$1/queue" | grep -q ' S4$' || broken "root doesn't see the message"
}

case_queue_without_proc() { # nothing tells who runs it, so nothing is done
  local status
  new_queue "$1/queue" root
  envelope a@x ann@here.example > "$1/envelope"
  find "$1/queue" | sort > "$1/list"
  mount -t tmpfs none /proc
  echo hello | "$QMAIL" queue "$1/envelope" "$1/queue" 2> "$1/log"
  status=$?
  find "$1/queue" | sort | cmp -s - "$1/list" || broken "something was made" || return
  [ "$status" = 63 ] || broken "it ended with $status" || return
  grep -q "nothing tells who this is: /proc/self/status" "$1/log" || broken "it told: $(cat "$1/log")"
}

nameless() { # DIR WORD..: the command of these words, of which one is empty, is refused, and makes nothing at the top of a copy of the machine
  local status
  echo hello | timeout 10 chroot "$1/root" /qmail "${@:2}" > "$1/out" 2> "$1/log"
  status=$?
  [ "$status$(cat "$1/log")" = 100usage ] || broken "$2 ended with $status: $(head -n 1 "$1/log")" || return
  ls "$1/root" | cmp -s - "$1/list" || broken "$2 made $(ls "$1/root" | comm -13 "$1/list" - | tr '\n' ' ')"
}

case_directory_without_a_name() { # the queue's directories would be the machine's
  local part
  mkdir "$1/root"
  cp "$QMAIL" "$1/root/qmail"
  envelope a@x ann@here.example > "$1/root/envelope"
  for part in lib lib64 usr proc dev; do mkdir -p "$1/root/$part" && mount --rbind "/$part" "$1/root/$part"; done
  ls "$1/root" > "$1/list"
  nameless "$1" queue /envelope '' && nameless "$1" send '' true --turns 3 && nameless "$1" clean '' && nameless "$1" lspawn '' \
    && nameless "$1" rspawn '' true && nameless "$1" audit '' \
    && nameless "$1" local '' =ann =/home =ann = = =x =a@x =./Maildir/
}

ends_with() { # STATUS COMMAND..
  local status
  timeout 20 "${@:2}"
  status=$?
  [ "$status" = "$1" ] || broken "${*:2:2} ended with $status, and not $1"
}

case_closed_descriptors() { # the file that is opened next is neither the message, nor a command's input, nor its output, nor its log
  new_queue "$1/queue" root
  envelope a@x ann@here.example > "$1/envelope"
  ends_with 54 "$QMAIL" queue "$1/envelope" "$1/queue" <&- || return
  ends_with 54 "$QMAIL" queue "$1/envelope" "$1/queue" <&- >&- 2>&- || return
  ends_with 54 "$QMAIL" queue - "$1/queue" <&- >&- 2>&- || return
  ends_with 54 "$QMAIL" clean "$1/queue" <&- || return
  ends_with 54 "$QMAIL" lspawn "$1/queue" <&- || return
  [ -z "$(find "$1"/queue/todo "$1"/queue/mess -type f)" ] || broken "something was queued" || return
  echo hello | ends_with 0 "$QMAIL" queue "$1/envelope" "$1/queue" >&- 2>&- || return
  ends_with 53 "$QMAIL" audit "$1/queue" >&- || return
  ends_with 53 "$QMAIL" send "$1/queue" true --turns 300 < /dev/null > "$1/out" 2>&-
  local status=$?
  [ -z "$(find "$1/queue/lock" -type f -size +0)" ] || broken "a lock has the log" || return
  ! grep -rq 'starting delivery' "$1/queue" || broken "the log is in a file of the queue" || return
  return "$status"
}

case_wrapper_by_root() { # contrib/qmail-queue becomes the owner, by pipes and by files, with a long envelope too
  local status
  new_queue "$1/queue"
  export QUEUEDIR=$1/queue
  echo one > "$1/message"
  { printf 'Fa@x\0' && seq -f 'Tann-%g@here.example' 20000 | tr '\n' '\0' && printf '\0'; } > "$1/envelope"
  chmod 600 "$1/envelope"
  chmod 700 "$1"
  chmod 711 "$1"
  "$CONTRIB/qmail-queue" < "$1/message" 1< "$1/envelope"
  status=$?
  [ "$status" = 0 ] || broken "with files it ended with $status" || return
  # a caller that keeps the pipe of the envelope open until it knows the status
  mkfifo -m 600 "$1/pipe"
  sleep 30 > "$1/pipe" &
  cat "$1/envelope" > "$1/pipe" &
  echo two | timeout 20 "$CONTRIB/qmail-queue" 1< "$1/pipe"
  status=$?
  [ "$status" = 0 ] || broken "with a pipe that stays open it ended with $status" || return
  { head -c 300000 /dev/zero; } | "$CONTRIB/qmail-queue" 1< "$1/message"
  status=$?
  [ "$status" = 91 ] || broken "with no envelope it ended with $status" || return
  [ -z "$(find "$1/queue" -user root)" ] || broken "root has files there" || return
  [ "$(as mailqueue "$QMAIL" audit "$1/queue" | grep -c ' S4$')" = 2 ] || broken "not two messages are queued" || return
  grep -q 'invoked by uid 0)' "$1"/queue/mess/*/* || broken "the caller isn't written down"
}

case_wrapper_without_a_queue() { # root makes none, which would be nobody's but root's
  local status
  envelope a@x ann@here.example > "$1/envelope"
  echo hello | QUEUEDIR=$1/queue "$CONTRIB/qmail-queue" 1< "$1/envelope" 2> "$1/log"
  status=$?
  [ ! -e "$1/queue" ] || broken "it made a queue" || return
  [ "$status" = 63 ] && grep -q "^$1/queue can't be found" "$1/log" || broken "it ended with $status: $(head -n 1 "$1/log")"
}

case_sender_by_root() { # contrib/qmail-send becomes the owner
  new_queue "$1/queue"
  envelope a@x ann@here.example > "$1/envelope"
  chmod 644 "$1/envelope"
  echo hello | as mailqueue "$QMAIL" queue "$1/envelope" "$1/queue" || broken "the injection ended with $?" || return
  QUEUEDIR=$1/queue QMAIL_IDLE_MS=50 "$CONTRIB/qmail-send" true 2> "$1/log" &
  reaches 20 grep -q 'end msg' "$1/log" || broken "nothing was delivered: $(tail -n 1 "$1/log")" || return
  [ -z "$(find "$1/queue" -user root)" ] || broken "root has files there"
}

links() { # DIR: a queue of mailqueue's whose files are links, and files of root's that they lead to
  as mailqueue mkdir -p "$1/control" "$1/users" "$1/home/joe"
  printf 'joe:x:1000:1000::/home/joe:/bin/sh\n' > "${1%/*}/passwd"
  export OWNER=mailqueue PASSWD=${1%/*}/passwd
}

case_first_queue_through_links() { # users/assign.new, a dangling control/me, a linked maildir
  mkdir "$1/roots"
  echo keep > "$1/roots/file"
  install -d -o mailqueue "$1/queue"
  links "$1/queue"
  as mailqueue ln -s "$1/roots/file" "$1/queue/users/assign.new"
  as mailqueue ln -s "$1/roots/new" "$1/queue/control/me"
  as mailqueue ln -s "$1/roots" "$1/queue/home/joe/Maildir"
  "$CONTRIB/qmail-first-queue" "$1/queue" here.example > "$1/out" 2>&1 && broken "it ended with 0" && return 1
  [ "$(cat "$1/roots/file")" = keep ] || broken "root's file was written" || return
  [ "$(ls "$1/roots")" = file ] || broken "root's directory has $(ls "$1/roots" | tr '\n' ' ')" || return
  [ -z "$(find "$1/roots" ! -user root)" ] || broken "root's files were given away" || return
  as mailqueue rm "$1/queue/control/me" "$1/queue/users/assign.new"
  "$CONTRIB/qmail-first-queue" "$1/queue" here.example > "$1/out" 2>&1 && broken "with a linked maildir it ended with 0" && return 1
  [ "$(ls "$1/roots")" = file ] || broken "a linked maildir was filled"
}

case_first_queue_below_a_link() { # DIR itself, or a directory above it, is the owner's link
  mkdir "$1/roots"
  install -d -o mailqueue "$1/his"
  links "$1/his/x"
  as mailqueue ln -s "$1/roots" "$1/his/link"
  as mailqueue ln -s "$1/roots/new" "$1/his/queue"
  "$CONTRIB/qmail-first-queue" "$1/his/link/queue" here.example > "$1/out" 2>&1 && broken "below a link it ended with 0" && return 1
  "$CONTRIB/qmail-first-queue" "$1/his/queue" here.example > "$1/out" 2>&1 && broken "over a link it ended with 0" && return 1
  [ -z "$(ls "$1/roots")" ] || broken "root's directory has $(ls "$1/roots" | tr '\n' ' ')"
}

case_first_queue_while_a_link_comes() { # a directory above DIR becomes the owner's link just before root would write there
  mkdir "$1/roots" "$1/bin"
  install -d -o mailqueue "$1/his"
  printf 'joe:x:1000:1000::/home/joe:/bin/sh\n' > "$1/passwd"
  as mailqueue mkdir -m 555 "$1/his/part" # so that the owner's own mkdir fails at first
  printf '#!/bin/sh\n[ "$(id -u)" != 0 ] || [ -L %s/part ] || { rmdir %s/part && ln -s %s %s/part; }\nexec /usr/bin/mkdir "$@"\n' \
    "$1/his" "$1/his" "$1/roots" "$1/his" > "$1/bin/mkdir"
  chmod 755 "$1/bin/mkdir"
  PATH=$1/bin:$PATH OWNER=mailqueue PASSWD=$1/passwd "$CONTRIB/qmail-first-queue" "$1/his/part/queue" here.example > "$1/out" 2>&1 \
    && broken "it ended with 0" && return 1
  [ -z "$(ls "$1/roots")" ] || broken "root's directory has $(ls -l "$1/roots" | tail -n 1)"
}

case_first_queue_by_root() { # without links all is made, as the owner's
  printf 'joe:x:1000:1000::/home/joe:/bin/sh\n' > "$1/passwd"
  OWNER=mailqueue PASSWD=$1/passwd "$CONTRIB/qmail-first-queue" "$1/var/queue" here.example || broken "it ended with $?" || return
  [ -z "$(find "$1/var/queue" ! -user mailqueue)" ] || broken "not all is the owner's" || return
  envelope a@x joe@here.example > "$1/envelope"
  echo hello | as mailqueue "$QMAIL" queue "$1/envelope" "$1/var/queue" || broken "the owner's injection ended with $?"
}

case_environment() { # what a user's command and a remote program get of it
  local file names
  new_queue "$1/queue" root
  echo "|tr '\\0' '\\n' < /proc/\$\$/environ > $1/command" > "$1/queue/home/ann/.qmail"
  printf '#!/bin/sh\ntr "\\0" "\\n" < /proc/$$/environ > %s/program\nprintf "r\\0Ktaken\\n\\0"\n' "$1" > "$1/remote"
  chmod 755 "$1/remote"
  envelope a@x ann@here.example bob@there > "$1/envelope"
  echo hello | "$QMAIL" queue "$1/envelope" "$1/queue"
  SECRET=told HOME=/nowhere LD_LIBRARY_PATH=/nowhere QUEUEDIR=$1/queue QMAIL_IDLE_MS=50 QMAIL_DRAIN_MS=60000 \
    "$QMAIL" send "$1/queue" "$1/remote" --turns 1000000 2> "$1/log" < /dev/null &
  reaches 20 grep -q 'end msg' "$1/log" || broken "not delivered: $(tail -n 1 "$1/log")" || return
  for file in command program; do
    names=$(sed 's/=.*//' "$1/$file" | sort | tr '\n' ' ')
    case " $names" in
      *" SECRET "* | *" HOME "* | *" LD_LIBRARY_PATH "*) broken "the $file got $names" || return ;;
    esac
    grep -q "^PATH=" "$1/$file" && grep -qx "QUEUEDIR=$1/queue" "$1/$file" && grep -qx QMAIL_DRAIN_MS=60000 "$1/$file" \
      || broken "the $file got $names" || return
  done
}

case_unit() { # what systemd lets the sender's service do, by its own count: under 4 of 10
  local exposure
  needs systemd-analyze
  cp "$CONTRIB/qmail-send.service" "$1/qmail-send.service"
  exposure=$(systemd-analyze security --offline=yes "$1/qmail-send.service" 2>&1 | sed -n 's/.*Overall exposure level.*: \([0-9.]*\) .*/\1/p')
  [ -n "$exposure" ] && [ "${exposure%.*}" -lt 4 ] || broken "its exposure is ${exposure:-not told}"
}
