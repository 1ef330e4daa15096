#!/usr/bin/env bash
# bench/maildir.sh [N]: makes N drops (50 without it) into a fresh maildir on a real directory, each by a process of
# crates/test_local, and has outside readers look at it: Python's mailbox.Maildir, and mutt if it is installed. Checks that
# each finds just these messages with their bytes, that nothing is left in tmp, and that a second drop under a name that is
# taken in tmp takes the next one and one under a name that is taken in new defers. Exit status 1 if something differs.
# DROP names the program; without it that of crates/test_local is taken, which is proved and built first if it isn't there.
set -eu
count=${1:-50}
top=$(cd "$(dirname "$0")/.." && pwd)
command -v python3 > /dev/null || { echo "skipped: there is no python3"; exit 0; }
work=$(mktemp -d)
trap 'rm -rf "$work"' EXIT
bad=0

program=${DROP:-$top/crates/test_local/out/test_local}
[ -x "$program" ] || (cd "$top/crates/test_local" && rt run -- "$work" no/ 0 0 h "" > /dev/null) || true
[ -x "$program" ] || { echo "there is no program to make drops"; exit 1; }

mkdir -p "$work/m/tmp" "$work/m/new" "$work/m/cur"
text() { printf 'Return-Path: <s%s@x>\nDelivered-To: u@y\nSubject: drop %s\n\nbody %s\n' "$1" "$1" "$1"; }
for k in $(seq 1 "$count"); do
  "$program" "$work" m/ "$k" 82 localhost "$(text "$k"; echo .)" > /dev/null || bad=1
done

python3 - "$work/m" "$count" <<'END' || bad=1
import mailbox, sys
box = mailbox.Maildir(sys.argv[1], factory=None, create=False)
count = int(sys.argv[2])
seen = {}
for key, message in box.items():
    seen[key] = (message["Subject"], message["Return-Path"], message.get_payload(), message.get_subdir())
wanted = {f"{k}.82.localhost": (f"drop {k}", f"<s{k}@x>", f"body {k}\n.", "new") for k in range(1, count + 1)}
for key in sorted(wanted.keys() | seen.keys()):
    if wanted.get(key) != seen.get(key):
        print("python3:", key, wanted.get(key), seen.get(key))
print(f"python3: {len(seen)} messages, {sum(wanted.get(k) == v for k, v in seen.items())} as dropped")
sys.exit(0 if seen == wanted else 1)
END

# mutt wants a terminal, which script(1) gives it, and copies all messages that it finds into one mailbox file
if command -v mutt > /dev/null && command -v script > /dev/null; then
  cat > "$work/rc" <<END
set folder=$work spoolfile=$work/m record=$work/sent postponed=$work/postponed mbox_type=mbox
set confirmcreate=no confirmappend=no move=no quit=yes
END
  keys="<tag-pattern>~A<enter><tag-prefix><copy-message>$work/copies<enter><exit>"
  TERM=xterm timeout 60 script -qec "mutt -n -F $work/rc -R -f $work/m -e 'push \"$keys\"'" /dev/null < /dev/null > /dev/null || bad=1
  seen=$(grep '^Subject: drop ' "$work/copies" | sort -u | wc -l)
  echo "mutt: $seen messages"
  [ "$seen" = "$count" ] || bad=1
else
  echo "mutt: skipped, it or script(1) isn't installed"
fi

[ -z "$(ls -A "$work/m/tmp")" ] || { echo "left in tmp: $(ls -A "$work/m/tmp")"; bad=1; }
: > "$work/m/tmp/0.82.localhost"
told=$("$program" "$work" m/ 0 82 localhost hi) || bad=1
[ "$told" = "dropped m/new/0.82_1.localhost" ] || { echo "a taken name: $told"; bad=1; }
told=$("$program" "$work" m/ 1 82 localhost hi) && bad=1
[ "$told" = "deferred" ] || { echo "a name taken in new: $told"; bad=1; }
told=$("$program" "$work" no/ 1 82 localhost hi) && bad=1
[ "$told" = "deferred" ] || { echo "no such maildir: $told"; bad=1; }
[ "$bad" = 0 ] && echo "all as it should be"
exit "$bad"
