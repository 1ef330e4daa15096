#!/usr/bin/env bash
# bench/attack.sh [NAME..]: attacks on a queue over real processes and directories, at bad moments and by bad hands: the cases of
# bench/attack/*.sh, all of them or those that are named. Prints a line for each. Exit status 0 only if all hold; 1 too if
# something is missing, which it names. By root. The program is ./qmail, or $QMAIL; the programs beside it those of contrib/, or
# of $CONTRIB. In Debian: the packages util-linux and procps, and what a case asks for by `needs`.
#
# A case is a shell function case_NAME. It gets a fresh directory as $1 and has $QMAIL and $CONTRIB, which every user may run. It
# returns 0 if what it attacks holds; if not it prints why and returns 1. It has limit_NAME seconds, or 60. It sees processes and
# mounts of its own, with which all ends that it started, and two users that are there for it alone: mailqueue, whose the queue is,
# and mailuser. What it may call stands below.
set -u
top=$(cd "$(dirname "$0")/.." && pwd)

needs() { # COMMAND..: ends the case if one is missing
  local name
  for name in "$@"; do command -v "$name" > /dev/null || { echo "missing: $name"; exit 2; }; done
}

broken() { # WHAT: why a case doesn't hold; `broken WHAT || return` ends it
  echo "$*"
  return 1
}

as() { # USER COMMAND..: by that user, with no group but his
  setpriv --reuid="$1" --regid="$1" --clear-groups "${@:2}"
}

reaches() { # SECONDS COMMAND..: whether the command answers 0 within that time; it is asked ten times a second
  local asked
  for ((asked = 0; asked < 10 * $1; asked++)); do
    "${@:2}" && return 0
    sleep 0.1
  done
  return 1
}

new_queue() { # QUEUE [USER]: a queue of that user (mailqueue) for the host here.example, with the local user ann
  local user=${2:-mailqueue}
  mkdir -p "$1/control" "$1/users" "$1/home/ann/Maildir/tmp" "$1/home/ann/Maildir/new" "$1/home/ann/Maildir/cur"
  echo here.example | tee "$1/control/me" > "$1/control/locals"
  printf '=ann:ann:1000:1000:home/ann:::\n+ann-:ann:1000:1000:home/ann:-::\n.\n' > "$1/users/assign"
  chown -R "$user:" "$1"
  chmod 700 "$1"
}

envelope() { # FROM TO..: prints an envelope
  printf 'F%s\0' "$1"
  printf 'T%s\0' "${@:2}"
  printf '\0'
}

# a case, alone with what it starts
if [ "${1:-}" = --within ]; then
  for file in "$top"/bench/attack/*.sh; do . "$file"; done
  cd "$3" || exit 2
  ("case_$2" "$3") # process 1 stays, since signals don't reach it
  exit
fi

[ "$(id -u)" = 0 ] || { echo "missing: root, who makes users and mounts"; exit 1; }
for name in unshare setpriv timeout pgrep; do
  command -v "$name" > /dev/null || { echo "missing: $name"; exit 1; }
done
program=$(realpath "${QMAIL:-$top/qmail}")
[ -x "$program" ] || { echo "missing: $program, which make build leaves"; exit 1; }
for file in "$top"/bench/attack/*.sh; do . "$file"; done
if [ $# = 0 ]; then
  set -- $(compgen -A function case_ | sed 's/^case_//')
fi

work=$(mktemp -d)
trap 'rm -rf "$work"' EXIT
chmod 755 "$work"
cp "$program" "$work/qmail"
cp -r "${CONTRIB:-$top/contrib}" "$work/contrib"
chmod -R a+rX "$work"
export QMAIL=$work/qmail CONTRIB=$work/contrib
sed '/^mail\(queue\|user\):/d' /etc/passwd > "$work/passwd"
sed '/^mail\(queue\|user\):/d' /etc/group > "$work/group"
printf 'mailqueue:x:61001:61001::/nowhere:/bin/sh\nmailuser:x:61002:61002::/nowhere:/bin/sh\n' >> "$work/passwd"
printf 'mailqueue:x:61001:\nmailuser:x:61002:\n' >> "$work/group"
unshare --mount mount --bind "$work/passwd" /etc/passwd || { echo "missing: the right to mount"; exit 1; }

within() { # NAME: the case, among processes and users of its own; what it says is in told
  local limit=limit_$1
  timeout -s KILL "${!limit:-60}" unshare --mount --pid --fork --kill-child --mount-proc sh -c '
    mount --bind "$1/passwd" /etc/passwd && mount --bind "$1/group" /etc/group || exit 2
    exec bash "$2" --within "$3" "$4"' sh "$work" "$top/bench/attack.sh" "$1" "$work/$1" > "$work/told" 2>&1
}

bad=0
for name in "$@"; do
  declare -F "case_$name" > /dev/null || { echo "no such case: $name"; bad=1; continue; }
  mkdir "$work/$name"
  begun=$SECONDS
  within "$name" 2> /dev/null # where this shell tells that it was killed
  status=$?
  if [ "$status" = 0 ]; then
    echo "holds: $name ($((SECONDS - begun)) s)"
  else
    [ "$status" = 137 ] && echo "killed at its limit" >> "$work/told"
    echo "doesn't hold: $name ($((SECONDS - begun)) s): $(tail -n 3 "$work/told" | tr '\n' ' ')"
    bad=1
  fi
  rm -rf "${work:?}/$name"
done
exit "$bad"
