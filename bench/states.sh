#!/usr/bin/env bash
# bench/states.sh DIR: looks at the files of a queue while no program runs on it. Prints `pid COUNT`, how many names are
# in pid/, and each number that has a file: `N S2` (its message), `N S3` (and its envelope in intd), `N S4` (and its
# envelope in todo). Anything else is `wrong NAME: WHY`, and the exit status is 1: a message file whose inode number isn't
# its own number or that lies in another split than the rest of N divided by 23, an envelope without a message, a name of
# another form, or a directory of the later states that isn't empty.
set -eu
dir=${1:?usage: bench/states.sh DIR}
find "$dir" -mindepth 2 -type f -printf '%P %i\n' | awk '
  function wrong(why) { print "wrong " $1 ": " why; bad = 1 }
  {
    parts = split($1, part, "/")
    top = part[1]
    number = part[parts]
  }
  top == "control" || top == "users" || top == "home" { next }
  top == "pid" && parts == 2 { pids++; next }
  number !~ /^[1-9][0-9]*$/ { wrong("its name is no number"); next }
  top == "mess" && parts == 3 {
    if (number != $2) wrong("its inode number is " $2)
    if (part[2] != number % 23) wrong("it lies in another split")
    mess[number] = 1
    next
  }
  top == "intd" && parts == 2 { intd[number] = $2; next }
  top == "todo" && parts == 2 { todo[number] = $2; next }
  { wrong("nothing has made this name yet") }
  END {
    print "pid " pids + 0
    for (n in intd) if (!(n in mess)) { print "wrong intd/" n ": it has no message"; bad = 1 }
    for (n in todo) if (!(n in mess)) { print "wrong todo/" n ": it has no message"; bad = 1 }
    for (n in todo) if (n in intd && intd[n] != todo[n]) { print "wrong todo/" n ": intd has another envelope"; bad = 1 }
    for (n in mess) print n, n in todo ? "S4" : n in intd ? "S3" : "S2"
    exit bad
  }' | sort -n
exit "${PIPESTATUS[1]}"
