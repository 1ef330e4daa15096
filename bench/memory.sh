#!/usr/bin/env bash
# bench/memory.sh [STEP [PROGRAM..]]: refuses memory to each program: its first growth, in the next run its second one, and so on,
# until three runs ask for no more. With STEP each STEP-th one alone. Prints for each program how many growths were refused, and how
# often each exit status came with what is left then. The programs: queue, clean, audit, local, forward, lspawn, rspawn, send,
# play, make, work; all of them if none is named. Exit status 1 if a run crashes or never ends, or leaves something that a program that
# is out of memory may not leave. A call that can't answer that it is out of memory counts as failed, so a program may end by that
# failure too. What may be left:
#
#   queue           51: nothing; but its name in pid/ if the link to mess/ had no memory, and a number in S3 if the link to todo/ had
#                   none, since nothing is removed then. 63: its name in pid/, if its unlink had none. In the order of these calls
#   clean           51: all as it was. `!`: an unlink had none; S3 if it was that of intd/, S2 if it was that of mess/
#   audit           51 or 54: the beginning of what must be printed
#   local, forward  no file in new/ that isn't whole; with 0 one, or a mail in the queue
#   lspawn, rspawn  the beginning of reports, one for each request. 54: no report; the input had no thread that reads it
#   send            any state in which the senders that are started afterwards deliver to the recipient, and leave nothing. 81: the
#                   cleaner couldn't be told to remove the message that was delivered: a number in S2
#   play, make      the beginning of what is printed with enough memory; all of it with 0
#   work            51: nothing printed; all that is printed otherwise
#
# Of a name in pid/, of S2 and of S3 nothing may be left once 37 hours have passed, a sender having been started then.
#
# A growth is a call of malloc or realloc by any thread of the program. Python stops it there by the debug registers of the processor
# (x86-64), counts, and has that one call answer null. What the program starts gets all memory. The program is ./qmail, or $QMAIL.
# Needs python3. Ends by itself.
set -u
step=${1:-1}
[ "$#" = 0 ] || shift
programs=${*:-queue clean audit local forward lspawn rspawn send play make work}
top=$(cd "$(dirname "$0")/.." && pwd)
program=$(realpath "${QMAIL:-$top/qmail}")
work=$(mktemp -d)
trap 'rm -rf "$work"' EXIT
cd "$work" || exit 1
. "$top/bench/check.sh"

if ! command -v python3 > noise; then
  echo "skipped: there is no python3"
  exit 0
fi
cat > refusing.py <<'END'
import contextlib, ctypes, os, signal, sys

wanted, words = int(sys.argv[1]), sys.argv[2:]
libc = ctypes.CDLL(None, use_errno=True)
libc.ptrace.argtypes = [ctypes.c_long, ctypes.c_long, ctypes.c_void_p, ctypes.c_void_p]
TRACEME, PEEKUSER, POKEUSER, CONT, GETREGS, SETREGS, SETOPTIONS = 0, 3, 6, 7, 12, 13, 0x4200
DEBUG, RAX, RIP, RSP = 848, 10, 16, 19  # where a thread has its debug registers, and the place of others among all


def trace(request, thread, where=0, value=0):
    if libc.ptrace(request, thread, where, value) < 0:
        raise OSError(ctypes.get_errno(), "ptrace")


def watch(thread, places):
    for k, place in enumerate(places):
        trace(POKEUSER, thread, DEBUG + 8 * k, place)
    trace(POKEUSER, thread, DEBUG + 56, (1 << 2 * len(places)) - 1 & 0x55)


def refuse(process, thread):
    """Has the function that begins here answer null."""
    regs = (ctypes.c_ulong * 27)()
    trace(GETREGS, thread, 0, ctypes.addressof(regs))
    with open(f"/proc/{process}/mem", "rb") as memory:
        memory.seek(regs[RSP])
        regs[RIP] = int.from_bytes(memory.read(8), "little")
    regs[RSP] += 8
    regs[RAX] = 0
    trace(SETREGS, thread, 0, ctypes.addressof(regs))


def base(process):
    for line in open(f"/proc/{process}/maps"):
        if "/libc.so" in line:
            return int(line.split("-")[0], 16)


process = os.fork()
if process == 0:
    signal.signal(signal.SIGPIPE, signal.SIG_DFL)
    trace(TRACEME, 0)
    os.execv(words[0], words)
os.waitpid(process, 0)
trace(SETOPTIONS, process, 0, 0x100008)
auxv = open(f"/proc/{process}/auxv", "rb").read()
entry = {int.from_bytes(auxv[k : k + 8], "little"): int.from_bytes(auxv[k + 8 : k + 16], "little") for k in range(0, len(auxv), 16)}[9]
watch(process, [entry])
trace(CONT, process)
os.waitpid(process, 0)
own = base("self")
places = [ctypes.cast(f, ctypes.c_void_p).value - own + base(process) for f in (libc.malloc, libc.realloc)]
watch(process, places)
trace(CONT, process)
threads, growths = {process}, 0


def go_on(thread, status):
    """Lets a thread that has stopped go on, after a growth that is counted, or with its signal."""
    global growths
    passed = os.WSTOPSIG(status)
    if thread not in threads:
        threads.add(thread)
        watch(thread, places)
        passed = 0
    elif passed == signal.SIGTRAP:
        passed = 0
        if status >> 16 == 0:
            growths += 1
            if growths == wanted:
                refuse(process, thread)
                open("refused", "w")
    trace(CONT, thread, 0, passed)


while True:
    thread, status = os.waitpid(-1, 0x40000000)
    if os.WIFSTOPPED(status):
        with contextlib.suppress(ProcessLookupError):  # it has ended meanwhile, with all others
            go_on(thread, status)
    elif thread == process:
        break
    else:
        threads.discard(thread)
sys.exit(os.waitstatus_to_exitcode(status) % 256)
END

queue() { timeout 60 "$program" "$@"; }

refuse() { # N WORD..: runs the program, whose growth N is refused. There is a file `refused` afterwards if it came so far
  rm -f refused
  timeout 120 python3 -I -S refusing.py "$1" "$program" "${@:2}"
}

each() { # NAME LAST LIKE..: refuses each growth of the program of this name; a run without must be told as LAST, the others like LIKE:
  # some like the first one, those after them like the second one, and so on
  local n=1 whole=0 status like all=
  for like in "${@:3}"; do all="$all(status ($like);)*"; done
  : > told
  while [ "$whole" -lt 3 ]; do
    "fresh_$1"
    status=0
    "run_$1" "$n" > out 2> log || status=$?
    if [ -e refused ]; then echo "status $status: $("left_$1" "$status")" >> told; else whole=$((whole + 1)); fi
    n=$((n + step))
  done
  echo "$1: $(wc -l < told) growths refused"
  sort told | uniq -c | sort -rn
  check "$1: what is left" "$(tr '\n' ';' < told | grep -cxE "$all")" 1
  check "$1: with enough memory" "$status: $("left_$1" "$status")" "$2"
}

mail() { # RECIPIENT: queues a mail to it
  printf 'Fa@x\0T%s\0\0' "$1" > envelope
  printf 'Subject: hello\n\nhello\n' | queue queue envelope q
}

fresh_queue() { # a queue with the user j, who has a maildir
  rm -rf q took
  queue clean q < /dev/null > noise
  mkdir -p q/home/j/Maildir/tmp q/home/j/Maildir/new q/home/j/Maildir/cur
  printf '=j:j:1000:1000:home/j:::\n.\n' > q/users/assign
}

begins() { cmp -s -n "$(stat -c %s "$1")" "$1" "$2" && echo begun || echo other; } # whether the file begins as the other does
states() { rm -rf q/home q/users q/lock; "$top/bench/states.sh" q | sed 's/^[0-9]* S/S/' | tr '\n' ' '; }
later() { # what is left 37 hours later, when a sender has been started
  find q/pid q/mess -type f -exec touch -d '37 hours ago' {} +
  QMAIL_IDLE_MS=1 queue send q ./remote --turns 20 2> noise
  states
}

# an injection
run_queue() { printf 'Fa@x\0Tb@y\0\0' > envelope; printf 'Subject: hello\n\nhello\n' | refuse "$1" queue envelope q; }
left_queue() {
  local left
  left=$(states)
  case $left in
    "pid 0 " | "pid 0 S4 ") echo "$left" ;;
    *) echo "$left- $(later)" ;;
  esac
}

# the cleaner, which is told to remove what is left of an injection
fresh_clean() {
  fresh_queue
  mail b@y
  mess=$(ls q/todo)
  rm "q/todo/$mess"
}
run_clean() { printf 'foop/%d\0' "$mess" | refuse "$1" clean q; }
left_clean() { echo "$(cat out) $(states)$([ "$(cat out)" != ! ] || echo "- $(later)")"; }

# an audit of a mail in the queue
fresh_audit() { fresh_queue; mail b@y; printf 'pid 0\n%d S4\n' "$(ls q/todo)" > whole; }
run_audit() { refuse "$1" audit q; }
left_audit() { echo "$(begins out whole) $(states)"; }

# a local delivery
printf 'Return-Path: <a@x>\nDelivered-To: j@localhost\nhi\n' > copy
fresh_local() { fresh_queue; }
run_local() { printf '3:hi\n,' | refuse "$1" local q =j =home/j =j = = =localhost =a@x =./Maildir/ --uid 0; }
left_local() {
  local file whole=0 torn=0
  for file in q/home/j/Maildir/new/*; do
    if cmp -s "$file" copy; then whole=$((whole + 1)); elif [ -e "$file" ]; then torn=$((torn + 1)); fi
  done
  echo "$whole whole, $torn torn, $(ls q/home/j/Maildir/tmp | wc -l) in tmp, forwarded $(ls q/todo | wc -l)"
}

# one that forwards, by an injector that is a process of its own
fresh_forward() { fresh_queue; echo '&a@b' > q/home/j/.qmail; }
run_forward() { run_local "$1"; }
left_forward() { left_local; }

# the spawners, each with a request
fresh_lspawn() { fresh_queue; mail j@localhost; }
run_lspawn() { mess=$(ls q/todo); printf '\001%d/%d\0a@x\0j@localhost\0' $((mess % 23)) "$mess" | refuse "$1" lspawn q; }
left_lspawn() { tr '\0\001' '.!' < out | tr '\n' ' '; }
fresh_rspawn() { fresh_queue; mail b@y; }
run_rspawn() { mess=$(ls q/todo); printf '\001%d/%d\0a@x\0b@y\0' $((mess % 23)) "$mess" | refuse "$1" rspawn q ./remote; }
left_rspawn() { left_lspawn; }
printf '#!/bin/sh\necho "$3" >> %s/took\nprintf "r\\0Kok\\0"\n' "$work" > remote
chmod +x remote

# a sender with a mail; then others, until nothing is left
fresh_send() { fresh_queue; mail b@y; }
run_send() { QMAIL_IDLE_MS=1 refuse "$1" send q ./remote --turns 20; }
left_send() {
  local states k
  states=$(queue audit q | sed 's/^[0-9]* //' | tr '\n' ' ')
  for k in $(seq 20); do
    [ "$(queue audit q)" = "pid 0" ] && break
    [ "$k" != 20 ] || states="$states- $(queue audit q | sed 's/^[0-9]* //' | tr '\n' ' ')- $(later)"
    QMAIL_IDLE_MS=1 queue send q ./remote --turns 200 2> noise
  done
  echo "$states- $(queue audit q | tr '\n' ' ')$([ -s took ] && echo delivered)"
}

# scripts, and the text of one
printf 'mail a a@x b@y : hi%%0A\nrun a\nsender\nsettle D\nshow\n' > script
queue play < script > play.whole
queue make 1 20 > make.whole 2> noise || programs=${programs/make/} # a program that makes none
fresh_play() { :; }
run_play() { refuse "$1" play < script; }
left_play() { echo "$(begins out play.whole)$(cmp -s out play.whole && echo ", whole")"; }
fresh_make() { :; }
run_make() { refuse "$1" make 1 20; }
left_make() { echo "$(begins out make.whole)$(cmp -s out make.whole && echo ", whole")"; }
echo 'mail a a@x b@y : hi' > mails
fresh_work() { :; }
run_work() { refuse "$1" work --threads 2 < mails; }
left_work() { if [ -s out ]; then tail -n 3 out | tr '\n' ' '; else echo nothing; fi; }

for name in $programs; do
  case $name in
    queue) each queue '0: pid 0 S4 ' '51: pid 0 |0: pid 0 S4 ' '51: pid 1 - pid 0 ' '63: pid 1 - pid 0 ' '51: pid 0 ' '51: pid 0 S3 - pid 0 ' ;;
    clean) each clean '0: + pid 0 ' '51:  pid 0 S3 |0: (\+|! pid 0 S[23] -) pid 0 ' ;;
    audit) each audit '0: begun pid 0 S4 ' '(51|54|0): begun pid 0 S4 ' ;;
    local) each local '0: 1 whole, 0 torn, 0 in tmp, forwarded 0' \
      '51: [01] whole, 0 torn, [01] in tmp, forwarded 0|111: 0 whole, 0 torn, [01] in tmp, forwarded 0|0: 1 whole, 0 torn, [01] in tmp, forwarded 0' ;;
    forward) each forward '0: 0 whole, 0 torn, 0 in tmp, forwarded 1' \
      '(51|111): 0 whole, 0 torn, 0 in tmp, forwarded [01]|0: 0 whole, 0 torn, 0 in tmp, forwarded 1' ;;
    lspawn) each lspawn '0: x!Kdid 1+0+0 .' '51: x?|54: x?|0: x!(Kdid 1\+0\+0|ZOut of memory[^.]*\. \(#4\.3\.0\)|Zqmail-local crashed\.) ?\.' ;;
    rspawn) each rspawn '0: x!Kok.' '51: x?|54: x?|0: x!(Kok|ZOut of memory\. \(#4\.3\.0\)|Zqmail-remote crashed\.) ?\.' ;;
    send) each send '0: pid 0 - pid 0 delivered' '(51|0|8[1-5]): pid 0 (S[2-5] )?- pid 0 delivered|81: pid 0 S2 - pid 0 S2 - pid 0 - pid 0 delivered' ;;
    play) each play '0: begun, whole' '51: begun|0: begun, whole' ;;
    make) each make '0: begun, whole' '51: begun|0: begun, whole' ;;
    work)
      step=$((step * 97))
      each work '0: pid 0 a 0 a.1 delivered ' '51: nothing|0: pid 0 a 0 a.1 delivered '
      step=$((step / 97))
      ;;
  esac
done
exit "$bad"
