# bench/check.sh: read by other scripts here, and no script of its own. `check WHAT GOT EXPECTED` says whether both are the same;
# if they differ, `bad` is 1.
bad=0

check() {
  if [ "$2" = "$3" ]; then
    echo "ok: $1"
  else
    echo "differs: $1: $2, and not $3"
    bad=1
  fi
}
