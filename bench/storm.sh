#!/usr/bin/env bash
# bench/storm.sh [N [K [C]]]: N messages of all kinds (200), injected by four shells while `send` runs and is killed K times (40) at
# random moments: it, its cleaner or a spawner, a delivery or what that has started, one alone or all at once. The kinds: a
# maildir, a forward, a command, an extension address, a virtual domain, no such user; a remote recipient that is accepted,
# deferred, refused, whose program crashes, or says nothing; several of them at once; no message at all and one of 1 MB; and
# the null sender. As root C times (4) meanwhile the image of the file system, ext4 and then xfs, is copied as a power cut could leave
# it (bench/images.sh).
#
# Afterwards each recipient of each injection that ended with 0 must have been delivered, or be named in a bounce that came to the
# message's sender, and the queue must have nothing but what killed injections left (S2, S3 and pid names). In each copy each
# recipient of what was accepted by then is delivered, named in a bounce, or pending, and no number is in another state than S1
# to S5. Prints how many deliveries were made twice. Exit status 1 if something is lost: then all is kept, and it says where. The
# program is ./qmail, or $QMAIL. In Debian mkfs.xfs is in xfsprogs, and pgrep in procps. Waits for the queue to run empty, at most half
# an hour for each file system.
set -u
count=${1:-200}
kills=${2:-40}
copies=${3:-4}
top=$(cd "$(dirname "$0")/.." && pwd)
program=$(realpath "${QMAIL:-$top/qmail}")
work=$(mktemp -d)
disk=$work/disk
image=$work/image
queue=$disk/queue
supervisor=
shells=
. "$top/bench/check.sh"
. "$top/bench/images.sh"
end() {
  kill $supervisor $(jobs -p) 2> "$work/noise"
  kill_all
  unmount
  if [ "$bad" = 0 ]; then rm -rf "$work"; else echo "kept: $work"; fi
}
trap end EXIT
cd "$work" || exit 1
mkdir disk copies

kill_all() { # the sender and all that it has started
  [ ! -s sender ] || kill -9 $(below $(cat sender)) 2> noise
}

kill_one() { # one of them
  local all
  all=($(below $(cat sender)))
  [ "${#all[@]}" = 0 ] || kill -9 "${all[RANDOM % ${#all[@]}]}" 2> noise
}

unmount() {
  for _ in $(seq 100); do
    mountpoint -q "$disk" || return 0
    umount "$disk" 2> noise && return 0
    sleep 0.1
  done
}

user() { # NAME PLAIN DASH INSTRUCTIONS: whoever's name begins with NAME
  mkdir -p "$queue/home/$1/Maildir/tmp" "$queue/home/$1/Maildir/new" "$queue/home/$1/Maildir/cur"
  printf '%s\n' "$2" > "$queue/home/$1/.qmail-default"
  echo "+$1:$1:1000:1000:home/$1:-::" >> "$queue/users/assign"
}

fresh_queue() {
  rm -rf "$queue" accepted took commands log calm sender senders
  "$program" clean "$queue" < /dev/null > noise || exit 1
  echo h.example > "$queue/control/me"
  echo v.example:maildir-v > "$queue/control/virtualdomains"
  user maildir ./Maildir/
  user postmaster ./Maildir/
  user sender ./Maildir/
  user forward '&maildir@h.example'
  user command "|sed -n 's/^Storm: \\(.*\\)/command\\1@h.example/p' >> $work/commands"
  echo . >> "$queue/users/assign"
  : > accepted
  : > took
  : > commands
}

# the remote program: what each domain's recipients get until it is calm
cat > remote <<END2
#!/bin/sh
take() { echo "\$3" >> $work/took; printf 'r\\0Ktaken\\n\\0'; exit 0; }
[ "\$1" = refused ] && { printf 'hno such user\\n\\0Dgiving up\\n\\0'; exit 0; }
[ -e $work/calm ] && take "\$@"
case \$1 in
  accepted) sleep 0.1; take "\$@" ;;
  deferred) printf 'slater\\n\\0Zlater\\n\\0' ;;
  crashing) kill -9 \$\$ ;;
esac
END2
chmod +x remote

supervise() {
  export QUEUEDIR=$queue # which all that it starts gets, so that it is found
  while :; do
    QMAIL_IDLE_MS=20 "$program" send "$queue" "$work/remote" --turns 1000000 2>> log &
    echo "$!" > sender.new && mv sender.new sender
    echo "$!" >> senders
    wait "$!"
    sleep 0.1
  done
}

recipients() { # I: of message I
  case $(($1 % 13)) in
    0) echo "maildir$1@h.example" ;;
    1) echo "forward$1@h.example" ;;
    2) echo "command$1@h.example" ;;
    3) echo "maildir-x$1@h.example" ;;
    4) echo "m$1@v.example" ;;
    5 | 11) echo "nobody$1@h.example" ;;
    6) echo "r$1@accepted" ;;
    7) echo "r$1@deferred" ;;
    8) echo "r$1@refused" ;;
    9) echo "r$1@crashing" ;;
    10) echo "r$1@silent" ;;
    12) echo "maildir$1@h.example nobody$1@h.example r$1@accepted r$1@refused r$1@deferred" ;;
  esac
}

message() { # I
  [ $(($1 % 13 % 3)) = 0 ] && [ $(($1 % 4)) = 0 ] && return # no bytes at all
  printf 'Subject: storm\nStorm: %s\n\nhello\n' "$1"
  [ $(($1 % 10)) != 3 ] || head -c 1000000 /dev/zero | tr '\0' x | fold -w 70
}

inject() { # SHELL: one of four shells' messages
  local i recipient sender
  export QUEUEDIR=$queue
  for ((i = $1; i <= count; i += 4)); do
    [ $((RANDOM % 2)) = 0 ] || sleep "0.$((RANDOM % 90 + 10))"
    sender=sender$i@h.example
    [ $((i % 13)) = 11 ] && sender=
    { printf 'F%s\0' "$sender"; printf 'T%s\0' $(recipients "$i"); printf '\0'; } > "envelope$1"
    message "$i" | "$program" queue "envelope$1" "$queue" 2> "noise$1" || continue
    for recipient in $(recipients "$i"); do echo "$recipient ${sender:-postmaster@h.example}"; done >> accepted
  done
}

writers() { # all that writes in the file system, also what has lost its sender
  below "$supervisor" $shells
  marked "QUEUEDIR=$queue"
}

copy_image() { # K: what was accepted by now, the image, and what was taken outside
  cp accepted "copies/$1.accepted" && cp --sparse=always "$image" "copies/$1" && cat took commands > "copies/$1.outside"
}

power_cut() { # K: a copy, with all that writes stopped
  stop_writers writers
  copy_at_rest copy_image "$1" || bad=1
  resume_writers
}

accepted_files() { # DIR: the messages of a queue that were accepted
  local file n
  for file in "$1"/mess/*/*; do
    n=${file##*/}
    if [ -e "$1/todo/$n" ] || [ -e "$1/info/$((n % 23))/$n" ]; then echo "$file"; fi
  done
}

known() { # DIR: the recipients that a mail, a bounce or the queue itself names
  { find "$1/home" "$1/bounce" -type f
    accepted_files "$1"; } | xargs -r grep -ahE '^(Delivered-To: |<.*>:$)' | sed 's/^Delivered-To: //; s/^<\(.*\)>:$/\1/'
  find "$1/todo" "$1/local" "$1/remote" -type f -print0 | xargs -0r grep -zah '^T' | tr '\0' '\n' | sed 's/^T//'
}

seen() { # DIR: `to RECIPIENT` and `failed RECIPIENT SENDER`, by the mails in the maildirs and what was taken outside
  sed 's/^/to /' took commands
  find "$1"/home/*/Maildir/new -type f | xargs -r awk '
    FNR == 1 { owner = "" }
    /^Delivered-To: / { if (owner == "") owner = $2; print "to", $2 }
    /^<.*>:$/ { print "failed", substr($0, 2, length($0) - 3), owner }' | sed 's/ maildir-v-/ /'
}

check_end() { # after the storm
  check "each injection ended with 0" "$(sort -u accepted | wc -l)" \
    "$(for ((i = 1; i <= count; i++)); do recipients "$i" | wc -w; done | awk '{ all += $1 } END { print all }')"
  seen "$queue" | sort > all
  uniq all > once
  awk '{ print $1 ~ /^nobody|@refused$/ ? "failed " $1 " " $2 : "to " $1 }' accepted | sort -u > wanted
  check "recipients that got nothing, and are in no bounce to the sender" "$(comm -23 wanted once | wc -l)" 0
  comm -23 wanted once | head -n 5
  check "numbers in another state" "$("$program" audit "$queue" | grep -c other)" 0
  check "messages that are left" "$("$program" audit "$queue" | grep -c 'S[45]')" 0
  echo "deliveries: $(grep -c '^to' all), of which made again: $(($(grep -c '^to' all) - $(grep -c '^to' once)))"
  echo "senders: $(wc -l < senders)"
}

cut_short() { # DIR: how many envelopes in todo/ don't end with a NUL
  local file n=0
  for file in "$1"/todo/*; do
    [ ! -e "$file" ] || [ "$(tail -c 1 "$file" | od -An -tx1)" = " 00" ] || n=$((n + 1))
  done
  echo "$n"
}

check_copy() { # K: as it was copied it stays
  cp --sparse=always "copies/$1" mounted
  mount -o "$options" mounted "$disk" || { check "copy $1" "can't be mounted" mounted; return; }
  { known "$queue" | sed 's/^maildir-v-//'; cat "copies/$1.outside"; } | sort -u > names
  check "recipients lost in copy $1 of $(sort -u "copies/$1.accepted" | wc -l)" \
    "$(awk '{ print $1 }' "copies/$1.accepted" | sort -u | comm -23 - names | wc -l)" 0
  awk '{ print $1 }' "copies/$1.accepted" | sort -u | comm -23 - names | head -n 5
  check "numbers in another state" "$("$program" audit "$queue" | grep -c other)" 0
  check "envelopes that are cut short" "$(cut_short "$queue")" 0
  unmount
}

idle() { ! "$program" audit "$queue" 2> noise | grep -q 'S[45]'; }

storm() { # kills while four shells inject, and then calm
  local k
  fresh_queue
  shells=
  supervise 2> noise &
  supervisor=$!
  for k in 1 2 3 4; do
    inject "$k" &
    shells="$shells $!"
  done
  for ((k = 1; k <= kills; k++)); do
    sleep "0.$((RANDOM % 90 + 10))"
    if [ $((RANDOM % 3)) = 0 ]; then kill_all; else kill_one; fi
    [ $((k * images / kills)) = $(((k - 1) * images / kills)) ] || power_cut "$k"
  done
  wait $shells
  : > calm
  kill_all
  for _ in $(seq 3600); do
    idle && break
    sleep 0.5
  done
  kill "$supervisor"
  wait "$supervisor" 2> noise
  kill_all
}

images=0
[ "$(id -u)" = 0 ] && losetup -f > noise 2>&1 && images=$copies
[ "$images" = 0 ] && { echo "in a directory, without copies: they need root and loop devices"; storm; check_end; }
for system in ext4 xfs; do
  [ "$images" = 0 ] && break
  rm -rf image mounted copies/*
  options=loop
  [ "$system" = ext4 ] || options=loop,nouuid # a copy has the same
  truncate -s 600M image
  if ! "mkfs.$system" -q image > noise 2>&1 || ! mount -o loop image "$disk"; then
    echo "$system: skipped, since it can't be mounted here"
    continue
  fi
  echo "$system"
  storm
  check_end
  unmount
  for copy in copies/*.accepted; do
    copy=${copy%.accepted}
    before=$bad
    bad=0
    check_copy "${copy##*/}"
    if [ "$bad" = 0 ]; then rm -f "$copy" "$copy".*; else mkdir -p "kept.$system" && mv "$copy" "$copy".* "kept.$system"; fi
    [ "$before" = 0 ] || bad=1
  done
done
[ "$bad" = 0 ] && echo "nothing is lost"
exit "$bad"
