#!/usr/bin/env bash
# bench/powercut.sh [N [M]]: what a power cut leaves of a queue, on ext4, xfs and btrfs as they are mounted by default. The
# image of a file system is copied, which is what its device was given by then (bench/images.sh), and the copy is mounted anew. First N
# injections of one message each (20 if not told): a copy right after each exit 0 must have all messages that were accepted
# by then, in S4 and whole. Then M copies (35) at random moments while four shells inject: each must have no state but S1 to
# S5, and all messages that were accepted by then. Exit status 1 if not. It needs root and loop devices; what is missing is
# told, and ends it or skips that file system. In Debian: the packages procps, xfsprogs and btrfs-progs.
set -eu
count=${1:-20}
moments=${2:-35}
shells=4
top=$(cd "$(dirname "$0")/.." && pwd)
program=${QMAIL:-$top/qmail}
[ "$(id -u)" = 0 ] || { echo "skipped: only root may mount a file system"; exit 0; }
losetup -f > /dev/null 2>&1 || { echo "skipped: there are no loop devices"; exit 0; }
work=$(mktemp -d)
disk=$work/disk
image=$work/image
mkdir "$disk" "$work/envelope" "$work/message" "$work/copies"
started=()
end() {
  for pid in ${started[@]+"${started[@]}"}; do kill -KILL -- "-$pid" 2> "$work/noise" || true; done
  umount "$disk" 2> "$work/noise" || true
  rm -rf "$work"
}
trap end EXIT
bad=0
. "$top/bench/images.sh"

unmount() { # waits for what has just been killed
  for _ in $(seq 200); do
    if umount "$disk" 2> "$work/noise"; then return; fi
    sleep 0.05
  done
  cat "$work/noise"
  exit 1
}

fresh_disk() { # SYSTEM SIZE: an empty file system
  rm -rf "$image" "$work/copies" "$work"/ended*
  mkdir "$work/copies"
  truncate -s "$2" "$image"
  "mkfs.$1" -q "$image" > "$work/noise" 2>&1 && mount -o loop "$image" "$disk" 2> "$work/noise"
}

inject() { # K: one injection; its status follows its number in a file
  local status=0
  printf 'Fs@example.org\0Tr%s@example.org\0\0' "$1" > "$work/envelope/$1"
  { head -c 20000 /dev/zero | tr '\0' x; printf '\nmessage %s\n' "$1"; } > "$work/message/$1"
  "$program" queue "$work/envelope/$1" "$disk/queue" < "$work/message/$1" 2> "$work/noise.$1" || status=$?
  rm -f "$work/noise.$1"
  echo "$1 $status" >> "$work/ended"
}

copy_image() { # NAME: the image, and what had ended by then
  cp "$work/ended" "$work/copies/$1.ended"
  cp --sparse=always "$image" "$work/copies/$1"
}

queued() { # K: whether its message is in S4, whole, with its recipient
  local todo number
  todo=$(grep -lFr "Tr$1@example.org" "$disk/queue/todo" 2> "$work/noise" || true)
  number=${todo##*/}
  [ -n "$number" ] && grep -qx "$number S4" "$work/states" \
    && tail -c "$(wc -c < "$work/message/$1")" "$disk/queue/mess/$((number % 23))/$number" | cmp -s - "$work/message/$1"
}

check_copy() { # NAME: mounts a copy; counts what was accepted and is lost, and what is in no state
  local k
  if ! mount -o loop "$work/copies/$1" "$disk" 2> "$work/noise"; then
    echo "  a copy can't be mounted: $(cat "$work/noise")"
    unmounted=$((unmounted + 1))
    return
  fi
  : > "$work/states"
  if [ -d "$disk/queue" ] && ! "$top/bench/states.sh" "$disk/queue" > "$work/states"; then
    grep '^wrong' "$work/states" | sed 's/^/  /'
    wrong=$((wrong + 1))
  fi
  for k in $(awk '$2 == 0 { print $1 }' "$work/copies/$1.ended"); do
    accepted=$((accepted + 1))
    if [ "$k" = "$1" ]; then last=$((last + 1)); fi
    if ! queued "$k"; then
      lost=$((lost + 1))
      if [ "$k" = "$1" ]; then lost_last=$((lost_last + 1)); fi
    fi
  done
  awk '$2 ~ /^S/ { print $2 }' "$work/states" >> "$work/seen"
  unmount
}

check_copies() { # mounts each copy, once the file system itself is unmounted
  local copy
  unmount
  if command -v btrfs > "$work/which"; then btrfs device scan --forget > "$work/noise" 2>&1 || true; fi
  accepted=0 lost=0 last=0 lost_last=0 wrong=0 unmounted=0
  : > "$work/seen"
  for copy in "$work"/copies/*.ended; do
    copy=${copy%.ended}
    check_copy "${copy##*/}"
    rm -f "$copy"
  done
  if [ "$lost" != 0 ] || [ "$wrong" != 0 ] || [ "$unmounted" != 0 ]; then bad=1; fi
}

after_each() { # SYSTEM SIZE: a copy right after each exit 0
  local k
  fresh_disk "$1" "$2" || { echo "$1: skipped, since it can't be mounted here"; return 1; }
  for ((k = 1; k <= count; k++)); do
    inject "$k"
    copy_at_rest copy_image "$k"
  done
  check_copies
  echo "$1: right after exit 0, $lost_last of $last messages are lost (with the earlier ones $lost of $accepted); copies with another state: $wrong"
  [ "$last" = "$count" ] || { echo "$1: $((count - last)) injections failed"; bad=1; }
}

shells_below() { below "${started[@]}"; }

copy_at_random() { # NAME: a copy at some moment, with all shells stopped
  sleep "0.$(printf '%03d' $((RANDOM % 200)))"
  stop_writers shells_below
  copy_at_rest copy_image "$1"
  resume_writers
}

at_random() { # SYSTEM SIZE: copies at random moments, while shells inject
  local s k
  fresh_disk "$1" "$2" || return 0
  inject 0
  set -m # each shell is a group of its own
  started=()
  for ((s = 1; s <= shells; s++)); do
    (for ((k = 1; ; k++)); do inject "$s.$k"; done) 2> "$work/noise.$s" &
    started+=($!)
  done
  set +m
  for ((k = 1; k <= moments; k++)); do copy_at_random "moment$k"; done
  for s in "${started[@]}"; do kill -KILL -- "-$s"; done
  wait "${started[@]}" 2> "$work/noise" || true
  started=()
  check_copies
  echo "$1: $moments copies at random moments, with $accepted accepted messages: $lost are lost; numbers in $(sort "$work/seen" | uniq -c | awk '{ printf "%s%s: %d", (NR > 1 ? ", " : ""), $2, $1 }'); copies with another state: $wrong"
}

for system in "ext4 64M" "xfs 320M" "btrfs 128M"; do
  read -r system size <<< "$system"
  if ! command -v "mkfs.$system" > "$work/which"; then
    echo "$system: skipped, since mkfs.$system isn't there"
    continue
  fi
  if after_each "$system" "$size"; then at_random "$system" "$size"; fi
done
exit "$bad"
