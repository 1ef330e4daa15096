#!/usr/bin/env bash
# bench/mangled.sh [COUNT [SEED [READER..]]]: COUNT texts (10000) for each reader, drawn by a seed (1): random bytes, and good texts with
# bytes changed, left out, doubled or cut off. Each text must be taken or refused by name, and nothing else may happen: no other
# exit status, no other words, no number in another state, no crash. The readers, and what is run:
#
#   envelopes    queue ENV DIR: 0 exactly if the text begins with an envelope, else 11, 54 or 91 by its first fault
#   netstrings   queue - DIR: 0 for two netstrings of which the second is an envelope; else 11, 31, 54 or 91
#   requests     rspawn: 0, or 91 at a field that is too long; a report for each whole request, and no others
#   outputs      what a remote program prints, and its exit status: one report, which begins with K, Z or D
#   reports      play: the text of a report
#   controls     play: a control file: the sender ends with 85, or goes on by it
#   users        play: users/assign
#   instructions play: a .qmail file: its mail is delivered, deferred or bounced as its lines say
#   todo         send: a file in todo/: it is preprocessed, or left there
#   info         send: a file in info/: its message is skipped, or delivered. A sender of over 4096 bytes is too long for a request:
#                rspawn ends with 91, and so send with 83, until it is gone
#
# Prints for each reader how often each came. Exit status 1 if anything else did. The program is ./qmail, or $QMAIL. Needs python3.
# Ends by itself.
set -eu
top=$(cd "$(dirname "$0")/.." && pwd)
program=$(realpath "${QMAIL:-$top/qmail}")
work=$(mktemp -d)
trap 'rm -rf "$work"' EXIT
cd "$work"
python3 - "$program" "$@" <<'END'
import collections, os, random, re, shutil, subprocess, sys

program, count, seed = sys.argv[1], int((sys.argv[2:] or [10000])[0]), int((sys.argv[3:] or [1])[0])
names = sys.argv[4:] or "envelopes netstrings requests outputs reports controls users instructions todo info".split()
seen, wrong = collections.Counter(), []


def run(words, given=b""):
    """The exit status, standard output and standard error of the program."""
    made = subprocess.run([program, *words], input=given, stdout=subprocess.PIPE, stderr=subprocess.PIPE, timeout=120)
    return made.returncode, made.stdout, made.stderr


def expect(is_right, what, text):
    seen[what] += 1
    if not is_right:
        wrong.append((what, text[:300]))


def mangled(draw, good):
    """Random bytes, or a good text with up to four changes."""
    if draw.random() < 0.2:
        return draw.randbytes(draw.randrange(200))
    text = bytearray(good)
    for _ in range(draw.randrange(5)):
        at = draw.randrange(len(text) + 1)
        end = min(len(text), at + draw.randrange(1, 20))
        kind = draw.randrange(5)
        if kind == 0:
            text[at : at + 1] = draw.randbytes(1)
        elif kind == 1:
            del text[at:end]
        elif kind == 2:
            text[at:at] = text[at:end] * draw.choice([1, 1, 2, 300])
        elif kind == 3:
            text[at:at] = draw.choice([b"\0", b"\n", b":", b"@", b"%", b"-", b"/", b"T", b"0", draw.randbytes(3)])
        else:
            del text[at:]
    return bytes(text)


def address_end(text, at):
    """Where an address ends that begins there, or the status of its fault."""
    end = text.find(b"\0", at)
    if end < 0 or end - at > 1002:
        return None, 11 if end - at > 1002 or len(text) - at > 1002 else 54
    return end + 1, 0


def envelope(text):
    """The status for an envelope, and where it ends."""
    if text[:1] != b"F":
        return 91 if text else 54, 0
    at, status = address_end(text, 1)
    while not status:
        if text[at : at + 1] == b"\0":
            return 0, at + 1
        if text[at : at + 1] != b"T":
            return 54 if at == len(text) else 91, 0
        at, status = address_end(text, at + 1)
    return status, 0


def netstring(text):
    """The content of the netstring that a text begins with, and the rest; None if it doesn't."""
    found = re.match(rb"(0|[1-9][0-9]*):", text)
    end = found and found.end() + int(found[1])
    return (text[found.end() : end], text[end + 1 :]) if found and text[end : end + 1] == b"," else (None, b"")


def fresh_queue():
    shutil.rmtree("q", ignore_errors=True)
    run(["clean", "q"])


def states():
    """How many numbers are in each state."""
    status, lines, _ = run(["audit", "q"])
    expect(status == 0 and not re.search(rb" other$", lines, re.M), "audit", lines)
    return collections.Counter(line.split()[1] for line in lines.decode().split("\n")[1:] if line)


def inject(recipient, sender=b"a@x"):
    open("envelope", "wb").write(b"F" + sender + b"\0T" + recipient + b"\0\0")
    run(["queue", "envelope", "q"], b"Subject: hello\n\nhello\n")


def envelopes(draw):
    fresh_queue()
    accepted = 0
    for _ in range(count):
        text = mangled(draw, b"Fs@h.example\0Tr@h.example\0Tq\0" + b"T" + b"x" * 1000 + b"\0\0")
        open("envelope", "wb").write(text)
        status, out, log = run(["queue", "envelope", "q"], b"hi\n")
        expect((status, out, log) == (envelope(text)[0], b"", b""), f"status {status}", text)
        accepted += status == 0
    expect(states() == {"S4": accepted}, "accepted and in the queue", b"")


def netstrings(draw):
    fresh_queue()
    accepted = 0
    for _ in range(count):
        text = mangled(draw, b"3:hi\n,27:Fs@h.example\0Tr@h.example\0\0,")
        message, rest = netstring(text)
        content, _ = netstring(rest)
        good = content is not None and envelope(content) == (0, len(content))
        status, out, log = run(["queue", "-", "q"], text)
        expect((out, log) == (b"", b"") and status in (0, 11, 31, 54, 91) and (status == 0 or not good), f"status {status}", text)
        accepted += status == 0
    expect(states() == {"S4": accepted}, "accepted and in the queue", b"")


def whole_requests(text):
    """The slots of the whole requests of a text, in order, and whether a field is too long."""
    slots, at = [], 0
    while at < len(text):
        end = at + 1
        for _ in range(3):
            stop = text.find(b"\0", end)
            if (len(text) if stop < 0 else stop) - end > 4096:
                return slots, True
            if stop < 0:
                return slots, False
            end = stop + 1
        slots.append(text[at])
        at = end
    return slots, False


def reports_in(out):
    """The reports of a spawner, None if its output isn't its first byte and reports."""
    return re.findall(rb"([\0-\xff])([KZD][^\0]*)\0", out[1:]) if re.fullmatch(rb"x([\0-\xff][KZD][^\0]*\0)*", out) else None


def remote(text):
    open("remote", "w").write("#!/bin/sh\n" + text + "\n")
    os.chmod("remote", 0o755)


def requests(draw):
    fresh_queue()
    inject(b"b@y")
    remote("printf 'r\\0Kok\\0'")
    number = int(os.listdir("q/todo")[0])
    one = b"%d/%d\0a@x\0b@y\0" % (number % 23, number)
    for _ in range(count):
        text = mangled(draw, b"\1" + one + b"\2" + one)
        status, out, log = run(["rspawn", "q", "./remote"], text)
        slots, is_long = whole_requests(text)
        found = reports_in(out)
        is_right = found is not None and sorted(it[0][0] for it in found) == sorted(slots) and log == b""
        expect(is_right and status == (91 if is_long else 0), f"status {status}", text)


def outputs(draw):
    fresh_queue()
    inject(b"b@y")
    remote('cat "outputs/${3%@*}"; exit $(cat "outputs/${3%@*}.status")')
    number = int(os.listdir("q/todo")[0])
    os.makedirs("outputs", exist_ok=True)
    for first in range(0, count, 100):
        given, texts = b"", []
        for slot in range(min(100, count - first)):
            texts.append(mangled(draw, b"rok\0sno\0Kok\0Zlater\0"))
            open(f"outputs/{slot}", "wb").write(texts[-1])
            open(f"outputs/{slot}.status", "w").write(str(draw.choice([0, 0, 0, 0, 1, 99, 100, 111, 255])))
            given += b"%c%d/%d\0a@x\0%d@y\0" % (slot, number % 23, number, slot)
        status, out, log = run(["rspawn", "q", "./remote"], given)
        found = reports_in(out)
        expect(status == 0 and log == b"" and found is not None and sorted(it[0][0] for it in found) == list(range(len(texts))), "rspawn", given)
        for slot, report in found or []:
            expect(len(report) <= 9999, "report " + report[:1].decode(), texts[slot[0]])


def escaped(text):
    """As a word of a script: of it `:` alone ends the words."""
    return "%3A" if text == b":" else "".join(chr(it) if 33 <= it <= 126 and it != 37 else f"%{it:02X}" for it in text)


ENTRY = b"=j:j:1000:1000:home/j:::\n+j-:j:1000:1000:home/j:-::\n.\n"
TOLD = re.compile(r"pid 0|[1-9][0-9]* S[45]|[abf][.0-9]* (0|alive)|[abf][.0-9]* (pending|noted|delivered|bounced|dropped)|refused (gone sender|rounds settle|alive clean)")


def played(opening, text, lines, due=None):
    """Plays a mail to a user over opening contents, and expects only what may be shown, or just what is due of it."""
    script = "".join(f"file {path} : {escaped(body)}\n" for path, body in opening) + MAILDIR + lines
    status, out, log = run(["play"], script.encode())
    told = out.decode().split("\n")[:-1]
    fates, ends = ([it[4:] for it in told if it.startswith(name)] for name in ("a.1 ", "f.1 "))
    is_right = (status, log) == (0, b"") and len(fates) == 1 and due in (None, (fates[0], ends))
    is_right = is_right and all(TOLD.fullmatch(it) or it == "f.1 11" and due == ("bounced", ["11"]) for it in told)
    expect(is_right, f"{fates[0] if fates else out[:40]}{', the sender ended' if 'refused gone sender' in told else ''}", text + b" " + out[-200:])


MAILDIR = "dir home/j/Maildir/tmp\ndir home/j/Maildir/new\n"
SETTLE = "mail a a@x j@localhost : hi%0A\nrun a\nsender\nsettle K\nstep sender\nshow\n"


def reports(draw):
    for _ in range(count):
        text = mangled(draw, b"no such user\n\nsorry\n")
        lines = f"mail a a@x b@y : hi%0A\nrun a\nsender\nturn\nturn\nturn\nreport 0 {draw.choice('KZD')} {escaped(text) or 'x'}\nsettle K\nshow\n"
        played([], text, lines)


CONTROLS = {
    "me": b"h.example\n", "locals": b"localhost\nh.example\n", "percenthack": b"localhost\n", "virtualdomains": b"x:j\n.y:\n:z\n",
    "envnoathost": b"localhost\n", "bouncefrom": b"M\n", "bouncehost": b"h.example\n", "doublebounceto": b"p\n",
    "doublebouncehost": b"h.example\n", "concurrencylocal": b"10\n", "concurrencyremote": b"20 \t\n", "queuelifetime": b"604800\n",
}


def controls(draw):
    for _ in range(count):
        name = draw.choice(sorted(CONTROLS))
        text = mangled(draw, CONTROLS[name])
        played([("control/" + name, text), ("users/assign", ENTRY)], text, SETTLE)


def users(draw):
    for _ in range(count):
        text = mangled(draw, ENTRY)
        played([("users/assign", text)], text, SETTLE)


def due_by(text):
    """What comes of a mail by a .qmail file, and how its forwards end, which go last, in one injection."""
    lines = [line.rstrip(b" \t") for line in (text or b"./Maildir/").removesuffix(b"\n").split(b"\n")]
    if not lines[0]:
        return "pending", []
    forwards = []
    for k, line in enumerate(lines):
        if line.startswith(b"|"):
            found = re.fullmatch(rb"\|exit (0|[1-9][0-9]?|1[0-9]{2}|2[0-4][0-9]|25[0-5])", line)
            status = int(found[1]) if found else 127
            if status == 99:
                break
            if status:
                return "bounced" if status in (64, 65, 70, 76, 77, 78, 100, 112) else "pending", []
        elif line.startswith((b".", b"/")):
            if line != b"./Maildir/" or line in lines[:k]:  # a maildir that isn't there, a mailbox, or a name that is taken
                return "pending", []
        elif line and not line.startswith((b"#", b"+")):
            forwards.append(line.removeprefix(b"&").split(b"\0")[0])
    if any(len(it) > 1002 for it in forwards):  # the injector refuses it with 11, which is for good
        return "bounced", ["11"]
    return "delivered", ["0"] if forwards else []


def instructions(draw):
    for _ in range(count):
        text = mangled(draw, b"# j\n|exit 0\n&a@b\n./Maildir/\n|exit 99\n/tmp/x/\n")
        played([("users/assign", ENTRY), ("home/j/.qmail", text)], text, SETTLE, due_by(text))


LOGGED = rb"(new msg|info msg|end msg|bounce msg|starting delivery|delivery|status:|alert: (left|skip)|triple bounce:) [^\n]*"


def sent(words, ended=0):
    """Sends so many turns, and expects only what may be logged, and this status. The numbers that were left or skipped."""
    status, out, log = run(["send", "q", "./remote", "--turns", words])
    odd = [line for line in log.splitlines(True) if not re.fullmatch(rb"%s\n" % LOGGED, line)]
    expect((status, out, odd) == (ended, b"", []), f"send, status {status}", out + b"".join(odd))
    return set(re.findall(rb"alert: (?:left|skip) ([0-9]+)", log))


def batch(draw, good, many, is_todo):
    """Mails of which each has a mangled file, and a sender."""
    fresh_queue()
    for _ in range(many):
        inject(b"b@y")
    files = {n: f"q/todo/{n}" if is_todo else f"q/info/{n % 23}/{n}" for n in sorted(map(int, os.listdir("q/todo")))}
    turns = str(4 * many + 20)
    if not is_todo:
        remote("printf 'snot yet\\0Zlater\\0'")
        sent(turns)
    long = []
    for n, file in files.items():
        text = mangled(draw, good)
        open(file, "wb").write(text)
        if not is_todo and re.fullmatch(rb"F[^\0]{4097,}\0", text):
            long.append(file)
    remote("printf 'r\\0Kok\\0'")
    left = sent(turns, 83 if long else 0)
    for file in long:
        open(file, "wb").write(good)
    if long:
        left |= sent(turns)
    found = states()
    seen["left" if is_todo else "skipped"] += len(left)
    seen["taken"] += many - len(left)
    expect(set(found) <= {"S4", "S5"} and found["S4" if is_todo else "S5"] >= len(left), "a batch", str(found).encode())


def todo(draw):
    for first in range(0, count, 500):
        batch(draw, b"u1000\0p77\0Fa@x\0Tb@y\0Tc@z\0", min(500, count - first), True)


def info(draw):
    for first in range(0, count, 500):
        batch(draw, b"Fa@x\0", min(500, count - first), False)


bad = False
for name in names:
    seen.clear()
    wrong.clear()
    globals()[name](random.Random(f"{seed} {name}"))
    print(f"{name}: " + ", ".join(f"{what} {times}" for what, times in sorted(seen.items(), key=str)), flush=True)
    for what, text in wrong[:5]:
        print(f"  wrong: {what}: {text!r}")
    bad = bad or bool(wrong)
sys.exit(bad)
END
