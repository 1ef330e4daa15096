#!/usr/bin/env bash
# bench/mailfront.sh: an outside program puts mail into the queue by contrib/qmail-queue. Debian's mailfront takes a message
# by SMTP and one by QMQP; checks that both are in the queue, in S4, with their sender and recipients. Then it is handed an
# address of 1,003 bytes, which has to be refused for good, and a message with which the disk is full, which has to be
# refused for now; checks mailfront's answers, and that nothing more is queued. Exit status 1 if one isn't so. The
# program is ./qmail, which `make build` leaves, or $QMAIL.
set -eu
top=$(cd "$(dirname "$0")/.." && pwd)
if ! command -v smtpfront-qmail > /dev/null || ! command -v qmqpfront-qmail > /dev/null; then
  echo "skipped: mailfront isn't there (in Debian the package mailfront)"
  exit 0
fi
work=$(mktemp -d)
disk=$work/disk
mkdir "$disk"
end() {
  umount "$disk" 2> "$work/noise" || true
  rm -rf "$work"
}
trap end EXIT
export QMAIL=${QMAIL:-$top/qmail}
export QUEUEDIR=$work/queue
mkdir "$QUEUEDIR" # by root contrib/qmail-queue makes none
export QMAILQUEUE=$top/contrib/qmail-queue
export QMAILHOME=$work # mailfront enters it; any directory does
export RELAYCLIENT= PROTO=TCP TCPREMOTEIP=127.0.0.1
bad=0

check() { # WHAT WANTED FOUND
  if [ "$2" = "$3" ]; then echo "$1: $3"; else echo "$1: $3, and not $2"; bad=1; fi
}

# mailfront keeps the pipe of the message open for reading itself, so that it would wait forever for a program that ends
# before a long message was read: the time limit shows that as a wrong answer.
smtp() { # RECIPIENT BODY: the first word of mailfront's answer to the message
  { printf 'EHLO client\r\nMAIL FROM:<ann@example.org>\r\nRCPT TO:<%s>\r\nDATA\r\n' "$1"
    printf 'Subject: by SMTP\r\n\r\n'
    cat "$2"
    printf '.\r\nQUIT\r\n'; } | timeout 60 smtpfront-qmail 2> "$work/log" | tr -d '\r' | awk '/^354/ { $1 = "none"; getline; print $1 }'
}

netstring() { printf '%d:%s,' "${#1}" "$1"; }

qmqp() { # RECIPIENT: the letter of mailfront's answer
  local message
  message=$(printf 'Subject: by QMQP\n\nhello')
  netstring "$(netstring "$message")$(netstring carol@example.org)$(netstring "$1")" \
    | timeout 60 qmqpfront-qmail 2> "$work/log" | sed 's/^[0-9]*:\(.\).*/\1/'
}

queued() { # SUBJECT: sender and recipients of each message with this subject that is in S4
  local number
  "$top/bench/states.sh" "$QUEUEDIR" | awk '$2 == "S4" { print $1 }' | while read -r number; do
    if grep -q "^Subject: $1" "$QUEUEDIR/mess/$((number % 23))/$number"; then
      tr '\0' '\n' < "$QUEUEDIR/todo/$number" | grep '^[FT]' | tr '\n' ' '
    fi
  done
}

numbers() { "$top/bench/states.sh" "$QUEUEDIR" | grep -c ' S' || true; }

printf 'hello\r\n' > "$work/short"
check "a message by SMTP, answer" 250 "$(smtp bob@example.org "$work/short")"
check "in the queue" "Fann@example.org Tbob@example.org " "$(queued 'by SMTP')"
check "a message by QMQP, answer" K "$(qmqp dave@example.org)"
check "in the queue" "Fcarol@example.org Tdave@example.org " "$(queued 'by QMQP')"

long=$(head -c 991 /dev/zero | tr '\0' x)@example.org
check "an address of ${#long} bytes by SMTP, answer" 554 "$(smtp "$long" "$work/short")"
check "an address of ${#long} bytes by QMQP, answer" D "$(qmqp "$long")"
check "numbers in the queue" 2 "$(numbers)"

if mount -t tmpfs -o size=256k none "$disk" 2> "$work/noise"; then
  QUEUEDIR=$disk/queue
  mkdir "$QUEUEDIR"
  head -c 1000000 /dev/zero | tr '\0' x | fold -w 70 | sed 's/$/\r/' > "$work/large"
  printf '\r\n' >> "$work/large"
  check "a message with which the disk is full, answer" 451 "$(smtp bob@example.org "$work/large")"
  check "numbers in the queue" 0 "$(numbers)"
else
  echo "skipped: this user may not mount a file system to fill"
fi
exit "$bad"
