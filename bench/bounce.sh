#!/usr/bin/env bash
# bench/bounce.sh: has Python's email package read bounces as crates/test_send prints them, which is what the sender injects:
# to a sender, to one with the ending of a variable return path, and as a double bounce; with two recipients, one of them with
# a newline in the address, and a report with empty lines. Checks the headers, that each address is named by the first line
# of a paragraph and no other is, and that the message is returned whole. Exit status 1 if something differs.
# BOUNCE names the program; without it that of crates/test_send is taken, which is proved and built first if it isn't there.
set -eu
top=$(cd "$(dirname "$0")/.." && pwd)
command -v python3 > /dev/null || { echo "skipped: there is no python3"; exit 0; }

program=${BOUNCE:-$top/crates/test_send/out/test_send}
[ -x "$program" ] || (cd "$top/crates/test_send" && rt run > /dev/null) || true
[ -x "$program" ] || { echo "there is no program to print bounces"; exit 1; }

python3 - "$program" <<'END'
import email, email.policy, email.utils, re, subprocess, sys

MESSAGE = "From: Ann <ann@x>\nSubject: hi\n\nhello\n\n<c@z>:\nnot a note\n"
NOTES = [("bob@y", "no such\n\n<d@z>:\n\nuser\n"), ("a\nb@y", "gone")]
NAMED = ["bob@y", "a_b@y"]
ROWS = [
    # the sender of the message, and to whom it is returned
    ("ann@x", "ann@x"),
    ("ann-@x-@[]", "ann-@x"),
    ("", "admin@d.example"),
]

def bounce(sender):
    words = ["bouncer", "b.example", "admin", "d.example", sender, "1000000000", MESSAGE]
    for address, report in NOTES:
        words += [address, report]
    return subprocess.run([sys.argv[1]] + words, check=True, capture_output=True).stdout

def faults(sender, recipient):
    raw = bounce(sender)
    message = email.message_from_bytes(raw, policy=email.policy.default)
    found = {name: str(value) for name, value in message.items()}
    wanted = {"From": "bouncer@b.example", "To": recipient, "Subject": "failure notice"}
    for name, value in wanted.items():
        if found.get(name) != value:
            yield f"{name}: {found.get(name)!r}"
    if sorted(found) != ["Date", "From", "Subject", "To"]:
        yield f"headers {sorted(found)}"
    if message["Date"].datetime.timestamp() != 1000000000:
        yield f"date {message['Date']}"
    if message.defects:
        yield f"defects {message.defects}"
    # in QSBMF the notes are the paragraphs after the first one, up to one that begins with a hyphen; each begins with `<`
    paragraphs = re.split(r"\n\n", message.get_content())
    named = []
    for paragraph in paragraphs[1:]:
        if paragraph.startswith("-"):
            break
        named.append(re.match(r"<(.*)>:(\n|$)", paragraph).group(1))
    if named != NAMED:
        yield f"named {named}"
    returned = message.get_content().split(f"\n\nReturn-Path: <{sender}>\n", 1)
    if len(returned) != 2 or returned[1] != MESSAGE:
        yield f"returned {returned[1:]!r}"

bad = False
for sender, recipient in ROWS:
    for fault in faults(sender, recipient):
        bad = True
        print(f"<{sender}>: {fault}")
print(f"python3: {len(ROWS)} bounces read, each with {len(NAMED)} addresses named")
sys.exit(1 if bad else 0)
END
