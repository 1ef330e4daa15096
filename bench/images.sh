# bench/images.sh: read by other scripts here, and no script of its own: copies of a file system's image that a power cut could have
# left. `$image` is the image, mounted through a loop device. A copy that is made while something is written is none of these: its
# first blocks are older than its last ones. So whoever writes is stopped, what is under way is awaited, and the copy is made again
# if anything was written meanwhile: the kernel itself writes what it has kept back.

written() { # how many writes and discards the image's device has done, and how many are under way
  local device
  device=$(losetup -j "$image" -O NAME -n)
  awk '{ print $5 + $12, $9 }' "/sys/block/${device##*/}/stat"
}

copy_at_rest() { # COMMAND..: it makes the copy, and makes it again until nothing was written meanwhile
  local before
  for _ in $(seq 1000); do
    before=$(written)
    if [ "${before#* }" = 0 ] && "$@" && [ "$before" = "$(written)" ]; then return 0; fi
    sleep 0.01
  done
  echo "the image is never at rest"
  return 1
}

below() { # PID..: these processes and those below them
  local pid
  for pid in "$@"; do
    echo "$pid"
    below $(pgrep -P "$pid")
  done
}

marked() { # MARK: the processes that were started with this variable and value
  grep -lzsxF "$1" /proc/[0-9]*/environ | sed 's:^/proc/\([0-9]*\)/.*:\1:'
}

stop_writers() { # COMMAND..: it tells the processes that write. A stopped process starts none, so when it tells no new one all are stopped
  local now
  stopped=none
  while now=$("$@" | sort -u | tr '\n' ' ') && [ "$now" != "$stopped" ]; do
    stopped=$now
    kill -STOP $stopped 2> /dev/null || true
  done
}

resume_writers() { # those that were stopped
  kill -CONT $stopped 2> /dev/null || true
}
