#!/usr/bin/env bash
# bench/qmqp.sh: a server of QMQP of real parts, in a directory of its own and on a loopback address: tcpsvd starts contrib/qmail-qmqpd
# for each connection. Postfix's qmqp-source hands in 1,000 messages by 20 connections at once, and nullmailer-send 20, if it is there;
# then Python sends packages of each form, good and bad, at once and byte by byte, and looks at each answer and status. So it does of
# clients that reset the connection, descriptors that are closed, and as root of a full disk and of another user's queue. Servers are
# killed at random while 8 clients send. At the end each message that was answered `K` is in the queue exactly once with its bytes, its
# sender and its recipients, and none is there that nobody sent. A package of 300 MB, and a recipient of 100 MB, take at most 16 MB.
# Then it times 500 messages by `qmail queue`, by `qmail qmqpd`, and by mailfront's qmqpfront-qmail if that is there.
#
# Exit status 1 if something differs or a program is missing: in Debian the packages ipsvd, postfix (of which it runs qmqp-source alone)
# and python3. nullmailer isn't installed beside postfix: NULLMAILER is the directory into which `dpkg-deb -x` unpacked its package.
# The program is ./qmail, which `make build` leaves, or $QMAIL. Ends by itself within ten minutes.
set -u
top=$(cd "$(dirname "$0")/.." && pwd)
QMAIL=$(realpath "${QMAIL:-$top/qmail}")
export QMAIL
PATH=$PATH:/usr/sbin
for name in tcpsvd qmqp-source python3; do
  command -v "$name" > /dev/null || { echo "missing: $name"; exit 1; }
done
[ -x "$QMAIL" ] || { echo "missing: $QMAIL"; exit 1; }
work=$(mktemp -d)
chmod 755 "$work"
cp "$QMAIL" "$work/qmail" # where another user can run it
QMAIL=$work/qmail
cp "$top/contrib/qmail-qmqpd" "$work/qmail-qmqpd"
listener=
end() {
  [ -z "$listener" ] || kill "$listener" 2> /dev/null
  rm -rf "$work"
}
trap end EXIT
export QUEUEDIR=$work/queue
port=$((20000 + RANDOM % 10000))
bad=0

check() { # WHAT WANTED FOUND
  if [ "$2" = "$3" ]; then echo "$1: $3"; else echo "$1: $3, and not $2"; bad=1; fi
}

queued() { "$QMAIL" audit "$QUEUEDIR" | grep -c ' S4$'; }

tcpsvd -l localhost -c 64 127.0.0.1 "$port" timeout 300 "$work/qmail-qmqpd" 2> "$work/log" &
listener=$!
for _ in $(seq 50); do
  python3 -c "import socket; socket.create_connection(('127.0.0.1', $port), 1).close()" 2> /dev/null && break
  sleep 0.1
done

timeout 300 qmqp-source -s 20 -m 1000 -l 4000 -f ann@example.org -t bob@example.org "127.0.0.1:$port" > "$work/source" 2>&1
check "qmqp-source ends" 0 "$?"
check "its messages in the queue" 1000 "$(queued)"
rm -rf "$QUEUEDIR"

if [ -x "${NULLMAILER:-}/usr/sbin/nullmailer-send" ]; then
  sends=$work/nullmailer
  mkdir -p "$sends/conf" "$sends/protocols" "$sends/queue/queue" "$sends/queue/tmp" "$sends/queue/failed"
  mkfifo "$sends/queue/trigger"
  ln -s "$(realpath "${NULLMAILER:-/}/usr/lib/nullmailer/qmqp")" "$sends/protocols/qmqp"
  echo "127.0.0.1 qmqp port=$port" > "$sends/conf/remotes"
  echo 0 > "$sends/conf/pausetime" # once
  for n in $(seq 20); do printf 'ann@example.org\nbob@example.org\n\nFrom: ann@example.org\n\nmail %d\n' "$n" > "$sends/queue/queue/$n.1"; done
  NULLMAILER_TEST_PREFIX=$sends timeout 60 "${NULLMAILER:-}/usr/sbin/nullmailer-send" > "$work/noise" 2>&1
  check "nullmailer-send ends" 0 "$?"
  check "messages that it keeps" 0 "$(find "$sends/queue" -type f | wc -l)"
  check "its messages in the queue" 20 "$(queued)"
  rm -rf "$QUEUEDIR"
else
  echo "nullmailer isn't there"
fi

python3 - "$QMAIL" "$QUEUEDIR" "$port" "$work/qmail-qmqpd" <<'END' || bad=1
import os, random, signal, socket, struct, subprocess, sys, threading, time
qmail, queue, port, contrib = sys.argv[1], sys.argv[2], int(sys.argv[3]), sys.argv[4]
wrong = 0

def check(what, wanted, found):
    global wrong
    if wanted == found:
        return
    print(f"{what}: {found!r}, and not {wanted!r}")
    wrong += 1

def net(text):
    return b"%d:%s," % (len(text), text)

def package(message, sender, recipients):
    return net(net(message) + net(sender) + b"".join(net(r) for r in recipients))

def run(data, where=queue):
    """The status and the answer of one package on standard input."""
    done = subprocess.run([qmail, "qmqpd", where], input=data, stdout=subprocess.PIPE, stderr=subprocess.DEVNULL, timeout=120)
    return done.returncode, done.stdout

def send(data, by_byte=False):
    """The answer to one package by the listener; empty if the connection ended."""
    try:
        with socket.create_connection(("127.0.0.1", port), 60) as s:
            for at in range(len(data)) if by_byte else [None]:
                s.sendall(data if at is None else data[at:at + 1])
            got = b""
            while True:
                more = s.recv(100)
                if not more:
                    return got
                got += more
    except OSError:
        return b""

def kept():
    """Each message in S4: its sender, its recipients and its bytes after the first line."""
    found = []
    lines = subprocess.run([qmail, "audit", queue], stdout=subprocess.PIPE).stdout.decode().splitlines()
    for line in lines:
        number, state = line.split()
        if number != "pid" and state == "S4":
            with open(f"{queue}/mess/{int(number) % 23}/{number}", "rb") as f:
                body = f.read().split(b"\n", 1)[1]
            names = [f"{queue}/todo/{number}", f"{queue}/todox/{int(number) % 23}/{number}"]
            with open(next(n for n in names if os.path.exists(n)), "rb") as f:
                records = f.read().split(b"\0")[:-1]
            found.append((records[2][1:], tuple(r[1:] for r in records[3:]), body))
    return sorted(found)

sent = []
def good(message, sender, recipients, answer):
    if answer.split(b":", 1)[-1].startswith(b"Kok "):
        sent.append((sender, tuple(recipients), message))
        return True
    return False

one = package(b"hi\n", b"a@x", [b"b@y"])
for message, sender, recipients in [(b"hi\n", b"a@x", [b"b@y"]), (b"none\n", b"a@x", []), (b"", b"", [b""]), (b"long\n", b"a" * 1002, [b"b@y", b"b" * 1002]),
                                    (bytes(range(256)) * 400, b"a@x", [b"r%d@y" % i for i in range(300)])]:
    for by_byte in (False, len(message) < 100):
        check("a good package", True, good(message, sender, recipients, send(package(message, sender, recipients), by_byte)))
for data, status, answer in [
        (b"", 54, b""), (one[:-1], 54, b""), (one[:-1] + b".", 91, b""), (one.replace(b"3:a@x,", b"3:a@x;"), 91, b""), (b"0:,", 91, b""), (b"6:3:hi\n,,", 91, b""),
        (b"018:", 91, b""), (b"1073741824:", 54, b""), (b"1073741825:", 31, b""), (b"18446744073709551615:", 31, b""), (b"18446744073709551616:", 91, b""),
        (b"28:3:hi\n,18446744073709551615:", 91, b""), (b"18:3:hi\n,3:a@x,4:b@yz,,", 91, b""),
        (package(b"hi\n", b"a" * 1003, [b"b@y"]), 0, b"10:Dstatus 11,"), (package(b"hi\n", b"a@x", [b"b\0Tevil@x"]), 0, b"12:Dbad address,"),
        (package(b"hi\n", b"a" * 1003, [b"b\0y"]), 0, b"12:Dbad address,")]:
    check(f"{data[:40]!r}", (status, answer), run(data))
two = subprocess.Popen([qmail, "qmqpd", queue], stdin=subprocess.PIPE, stdout=subprocess.PIPE)
two.stdin.write(one)
two.stdin.flush()
check("an answer before the input ends", True, good(b"hi\n", b"a@x", [b"b@y"], two.stdout.read()))
two.stdin.close()
two.wait()
check("what is in the queue", sorted(sent), kept())
print(f"{len(sent)} good packages are queued, and no other")

# clients that reset the connection: within a package nothing is queued, after it the message may be
def reset(data):
    with socket.create_connection(("127.0.0.1", port), 60) as s:
        s.setsockopt(socket.SOL_SOCKET, socket.SO_LINGER, struct.pack("ii", 1, 0))
        s.sendall(data)
        time.sleep(0.2)
late = package(b"reset\n", b"a@x", [b"b@y"])
for cut in (1, 5, len(late) - 1):
    reset(late[:cut])
check("a reset within a package", sorted(sent), kept())
reset(late)
check("a reset after one", True, [m for m in kept() if m not in sent] in ([], [(b"a@x", (b"b@y",), b"reset\n")]))
sent += [m for m in kept() if m not in sent]

# descriptors that are closed: nothing is read, or nobody is answered
def without(which):
    done = subprocess.run([qmail, "qmqpd", queue + "4"], input=one, stdout=subprocess.PIPE, stderr=subprocess.DEVNULL, preexec_fn=lambda: os.close(which))
    return done.returncode, done.stdout
check("no standard input", (54, b""), without(0))
check("nothing is queued then", b"pid 0\n", subprocess.run([qmail, "audit", queue + "4"], stdout=subprocess.PIPE).stdout)
check("no standard output", (53, b""), without(1))
check("no standard error", (0, b"Kok "), (lambda s, out: (s, out.split(b":")[-1][:4]))(*without(2)))
with open("/dev/full", "wb") as full:
    check("an output that is full", 53, subprocess.run([qmail, "qmqpd", queue + "4"], input=one, stdout=full, stderr=subprocess.DEVNULL).returncode)

# as root: another user's queue is left alone, and contrib/qmail-qmqpd becomes that user; a disk that is full
if os.getuid() == 0:
    other = queue + "5"
    run(one, other)
    names = sorted(os.listdir(other + "/pid") + os.listdir(other + "/todo"))
    subprocess.run(["chown", "-R", "65534:65534", other], check=True)
    check("another user's queue", (63, b""), run(one, other))
    check("it is left alone", names, sorted(os.listdir(other + "/pid") + os.listdir(other + "/todo")))
    done = subprocess.run([contrib], input=one, stdout=subprocess.PIPE, stderr=subprocess.DEVNULL, env=dict(os.environ, QUEUEDIR=other))
    check("contrib/qmail-qmqpd by root", (0, b"Kok "), (done.returncode, done.stdout.split(b":")[-1][:4]))
    check("its file's owner", {65534}, {os.stat(f"{other}/todo/{name}").st_uid for name in os.listdir(other + "/todo")})
    small = queue + "6"
    os.mkdir(small)
    if subprocess.run(["mount", "-t", "tmpfs", "-o", "size=300k", "none", small], stderr=subprocess.DEVNULL).returncode == 0:
        check("a full disk", (0, b"10:Zstatus 53,"), run(package(b"x" * 1000000, b"a@x", [b"b@y"]), small))
        check("a full disk, and a wrong last comma", (91, b""), run(package(b"x" * 1000000, b"a@x", [b"b@y"])[:-1] + b".", small))
        check("nothing is left there", b"pid 0\n", subprocess.run([qmail, "audit", small], stdout=subprocess.PIPE).stdout)
        check("a short one", (0, b"Kok "), (lambda s, out: (s, out.split(b":")[-1][:4]))(*run(one, small)))
        subprocess.run(["umount", small], check=True)
    else:
        print("no tmpfs can be mounted")
print("resets, closed descriptors, a full disk and another user's queue: done")

# servers that are killed
ends = time.time() + 20
def client(seed):
    draw = random.Random(seed)
    count = 0
    while time.time() < ends:
        count += 1
        message = b"%d %d\n" % (seed, count) + draw.randbytes(draw.randrange(200000)) + b"\n"
        recipients = [b"b%d@y" % i for i in range(draw.randrange(4))]
        answer = send(package(message, b"a%d@x" % seed, recipients))
        tried.append((b"a%d@x" % seed, tuple(recipients), message))
        good(message, b"a%d@x" % seed, recipients, answer)
tried = list(sent)
clients = [threading.Thread(target=client, args=(seed,)) for seed in range(8)]
for c in clients:
    c.start()
kills = 0
draw = random.Random(1)
while time.time() < ends:
    time.sleep(draw.random() * 0.05)
    for name in os.listdir("/proc"):
        try:
            with open(f"/proc/{name}/cmdline", "rb") as f:
                words = f.read().split(b"\0")
            if b"qmqpd" in words and queue.encode() in words and draw.random() < 0.3:
                os.kill(int(name), signal.SIGKILL)
                kills += 1
        except (OSError, ValueError):
            pass
for c in clients:
    c.join()
found = kept()
check("messages that are there twice", len(found), len(set(found)) + len(sent) - len(set(sent)))
check("messages that were answered K and aren't there", [], [m[:2] for m in set(sent) - set(found)])
check("messages that nobody sent", [], [m[:2] for m in set(found) - set(tried)])
print(f"{kills} servers were killed; {len(sent)} messages were answered K, and all are queued; {len(found)} are")

# memory
def memory(make):
    """The answer, and the most MB that were in memory before the last piece was sent."""
    child = subprocess.Popen([qmail, "qmqpd", queue + "2"], stdin=subprocess.PIPE, stdout=subprocess.PIPE)
    for piece in make():
        last = piece
        if not piece.endswith(b",,"):
            child.stdin.write(piece)
    child.stdin.flush()
    time.sleep(1)
    with open(f"/proc/{child.pid}/status") as f:
        most = next(int(line.split()[1]) for line in f if line.startswith("VmHWM"))
    child.stdin.write(last)
    child.stdin.flush()
    answer = child.stdout.read()
    child.wait()
    return answer[:6], most // 1024
def long_message():
    size = 300_000_000
    inner = b"%d:" % size
    rest = b"," + net(b"a@x") + net(b"b@y")
    yield b"%d:" % (len(inner) + size + len(rest)) + inner
    for _ in range(3000):
        yield b"x" * 100_000
    yield rest + b","
def long_recipient():
    size = 100_000_000
    first = net(b"hi\n") + net(b"a@x") + b"%d:" % size
    yield b"%d:" % (len(first) + size + 1) + first
    for _ in range(1000):
        yield b"x" * 100_000
    yield b",,"
for what, make, letter in [("a package of 300 MB", long_message, b"K"), ("a recipient of 100 MB", long_recipient, b"D")]:
    answer, most = memory(make)
    check(what, (letter, True), (answer.split(b":")[1][:1], most <= 16))
    print(f"{what}: {most} MB")

# speed
def timed(words, data):
    begun = time.time()
    subprocess.run([qmail, *words, queue + "3"], input=data, stdout=subprocess.DEVNULL, check=True)
    return (time.time() - begun) / 500 * 1000
body = b"x" * 4000
by_queue = by_package = 0
for _ in range(500): # one beside the other
    by_queue += timed(["queue", "-"], net(body) + net(b"Fa@x\0Tb@y\0\0"))
    by_package += timed(["qmqpd"], package(body, b"a@x", [b"b@y"]))
print(f"a message by queue {by_queue:.2f} ms, by qmqpd {by_package:.2f} ms, {by_package / by_queue:.2f} of it")
sys.exit(1 if wrong else 0)
END

if command -v qmqpfront-qmail > /dev/null; then
  export QMAILQUEUE=$top/contrib/qmail-queue QMAILHOME=$work RELAYCLIENT='' PROTO=TCP TCPREMOTEIP=127.0.0.1
  body=$(head -c 4000 /dev/zero | tr '\0' x)
  inner="4000:$body,3:a@x,3:b@y,"
  begun=$(date +%s%N)
  for _ in $(seq 500); do printf '%d:%s,' "${#inner}" "$inner" | qmqpfront-qmail > "$work/noise" 2>&1; done
  echo "a message by qmqpfront-qmail: $((($(date +%s%N) - begun) / 500000)) microseconds"
else
  echo "mailfront isn't there (in Debian the package mailfront)"
fi
[ "$bad" = 0 ] && echo "bench/qmqp.sh: all is as it should be"
exit "$bad"
