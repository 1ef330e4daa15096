# bench/attack/faults.sh: cases of bench/attack.sh: calls of the system that fail, and what standard error says of them.

fault_lines() { # FILE: its lines on faults, sorted, each once for each time that it came
  grep '^fault: ' "$1" | sort
}

case_faults_are_told() { # files, a list of them, a directory and a program that can't be had: each is told, and once a minute
  new_queue "$1/queue"
  cd "$1" || return
  as mailqueue mkdir -p queue/todo queue/lock
  as mailqueue "$QMAIL" audit queue > audit 2>&1
  envelope a@here.example ann@here.example b@there.example > e
  chmod 644 e
  as mailqueue "$QMAIL" queue e queue < e 2> first || broken "no message: $(cat first)" || return
  # two more messages: an envelope that nobody may read, and one that is a link to itself
  as mailqueue sh -c 'umask 077; : > queue/mess/8/77; : > queue/mess/19/88; : > queue/todo/77; chmod 0 queue/todo/77'
  ln -s 88 queue/todo/88
  QMAIL_IDLE_MS=20 as mailqueue timeout -s KILL 8 "$QMAIL" send queue ./no-such-program --turns 300 2> log
  as mailqueue "$QMAIL" send queue ./no-such-program --turns 3 2>> again
  fault_lines log > told
  for line in "open todo/77: Permission denied" "open todo/88: Too many levels of symbolic links" \
    "start ./no-such-program: no such program, or it can't be executed"; do
    [ "$(grep -cFx "fault: $line" told)" = 1 ] || broken "$line: $(cat told log)" || return
  done
  chmod 0 queue/todo
  as mailqueue "$QMAIL" queue e queue < e 2> second && broken "queued" && return 1
  grep -q "^fault: [a-z]* todo/[0-9]*: Permission denied" second || broken "todo/: $(cat second)"
}

case_a_directory_that_cannot_be_made_is_told() {
  mkdir "$1/sealed" && chmod 755 "$1/sealed"
  envelope a@here.example ann@here.example > "$1/e"
  chmod 644 "$1/e"
  as mailqueue "$QMAIL" queue "$1/e" "$1/sealed/queue" < "$1/e" 2> "$1/log"
  grep -qFx "fault: mkdir $1/sealed/queue: Permission denied" "$1/log" || broken "$(cat "$1/log")"
}
