#!/usr/bin/env bash
# bench/msmtp.sh: contrib/remote-msmtp by itself, which hands messages to smtp-sink on 127.0.0.1: what it reports after each kind of
# reply, what the host outside got, which route it takes, the servers of a domain one after the other, and addresses that look like
# options, paths or commands. A stand-in answers for host(1), so no name is asked for. Exit status 1 if something differs, or if a
# program is missing: in Debian the packages msmtp and postfix, of which it runs smtp-sink alone. Ends by itself within two minutes.
set -u
top=$(cd "$(dirname "$0")/.." && pwd)
PATH=$PATH:/usr/sbin
for name in msmtp smtp-sink; do
  command -v "$name" > /dev/null || { echo "missing: $name (in Debian the packages msmtp and postfix)"; exit 1; }
done
work=$(mktemp -d)
sink=
trap 'kill $sink 2> /dev/null; rm -rf "$work"' EXIT
cd "$work" || exit 1
. "$top/bench/check.sh"
export QUEUEDIR=$work/queue
mkdir -p queue/control bin got
chmod 711 . && chmod 777 got
echo h.example > queue/control/me
port=$((20000 + $$ % 10000))
root=
[ "$(id -u)" = 0 ] && root=so # smtp-sink drops its rights then

outside() { # OPTION..: a new host outside
  [ -z "$sink" ] || { kill "$sink"; wait "$sink" 2> noise; }
  rm -f got/*
  timeout 120 smtp-sink ${root:+-u nobody} -d got/m. "$@" 127.0.0.1:$port 100 > sink.log 2>&1 &
  sink=$!
  for _ in $(seq 100); do
    { : > /dev/tcp/127.0.0.1/$port; } 2> noise && return 0
    sleep 0.1
  done
  echo "differs: no host outside"
  bad=1
}

deliver() { # DOMAIN SENDER RECIPIENT: the report of a message, NUL as |
  printf 'Subject: hello\n\n.dot\nBcc: x\n' | PATH=$work/bin:$PATH timeout 60 "$top/contrib/remote-msmtp" "$@" | tr '\0\n' '|/'
}

got() { cat got/* 2> noise | sed -n "s/^X-$1-Args: //p" | tr '\n' ' '; } # Mail or Rcpt: what the host outside was told

echo ":127.0.0.1:$port" > queue/control/smtproutes
taken='r|K127.0.0.1 accepted the message./|'
outside
check "a message" "$(deliver y a@x b@y)" "$taken"
check "its sender and recipient, and the name of this host" "$(got Mail)$(got Rcpt)$(got Helo)" "<a@x> <b@y> h.example "
check "its text" "$(cat got/* | sed -n '/^Subject/,$p' | tr '\n' '/')" "Subject: hello//.dot/Bcc: x//"
outside
check "an empty sender" "$(deliver y '' b@y)$(got Mail)" "$taken<> "

# replies
reply() { # WHAT LETTER OPTION..
  local what=$1 letter=$2
  shift 2
  outside "$@"
  check "$what" "$(deliver y a@x b@y | sed 's/^\(.\).*server message: \(...\).*/\1 \2/')" "$letter"
}
reply "a recipient that is refused for good" "D 500" -f rcpt
reply "a recipient that is refused for now" "Z 450" -r rcpt
reply "a sender that is refused for good" "D 500" -f mail
reply "a sender that is refused for now" "Z 450" -r mail
reply "a message that is refused for good" "D 500" -f .
reply "a message that is refused for now" "Z 450" -r .
reply "data that are refused for good" "D 500" -f data
reply "a host that takes nothing now" "Z 450" -r connect
outside -q rcpt
check "a host that hangs up" "$(deliver y a@x b@y | cut -c 1)" Z
echo ":127.0.0.1:1" > queue/control/smtproutes
check "a host that isn't there" "$(deliver y a@x b@y | cut -c 1)" Z
check "and why" "$(deliver y a@x b@y | grep -c 'cannot connect')" 1

# routes
cat > queue/control/smtproutes <<END2
# a line that is none
y:127.0.0.1:$port
.z:127.0.0.1:$port
away.z:127.0.0.1:1
own.z:
END2
printf '#!/bin/sh\n. %s/answer\n' "$work" > bin/host
chmod +x bin/host
echo 'echo "Host gone not found: 3(NXDOMAIN)"; exit 1' > answer
outside
check "a domain's route, in capitals too" "$(deliver Y a@x b@Y)" "$taken"
check "the route of the domains below one" "$(deliver a.b.z a@x b@a.b.z)" "$taken"
check "but not of that one" "$(deliver z a@x b@z)" "DSorry, I couldn't find any host named z. (#5.1.2)/|"
check "the longest counts" "$(deliver away.z a@x b@z | cut -c 1)" Z
check "a route without a host is none" "$(deliver own.z a@x b@z | cut -c 1)" D

# servers as host(1) tells them
echo "w::$port" > queue/control/smtproutes
serve() { for name in "$@"; do echo "echo 'w mail is handled by $name.'"; done > answer; }
serve "20 127.0.0.1" "5 127.0.0.8" "10 a..b"
outside
check "the servers of a domain, one after the other" "$(deliver w a@x b@w)" "$taken"
check "the last one gets all" "$(cat got/* | sed -n '/^Subject/,$p' | tr '\n' '/')" "Subject: hello//.dot/Bcc: x//"
outside -f rcpt
serve "5 127.0.0.1" "10 127.0.0.8"
check "a refusal for good ends it" "$(deliver w a@x b@w | cut -c 1)" D
serve "5 a..b" "10 127.0.0.8" "20 b..c"
check "servers of which one may come back" "$(deliver w a@x b@w | cut -c 1)" Z
for exchange in "0 " "10 "; do
  serve "$exchange"
  check "a domain that takes no mail, by $exchange." "$(deliver w a@x b@w)" "DSorry, w takes no mail. (#5.1.10)/|"
done
serve "10 a b"
check "servers without names of hosts" "$(deliver w a@x b@w | sed 's/:.*(/: (/')" \
  "ZThe servers of w have no names of hosts: (#4.4.4)/|"
outside
serve "0 " "20 127.0.0.1"
check "a server beside one that is none" "$(deliver w a@x b@w)" "$taken"
echo 'echo ";; no servers could be reached"; exit 1' > answer
check "a name server that doesn't answer" "$(deliver w a@x b@w | cut -c 1)" Z
echo 'echo "0 has no MX record"' > answer
check "a domain without a server is its own" "$(deliver 0 a@x b@w | grep -c "connect to 0,")" 1
echo "::$port" > queue/control/smtproutes
outside
check "an address as a domain" "$(deliver '[127.0.0.1]' a@x 'b@[127.0.0.1]')" "$taken"

# words as they come
: > queue/control/smtproutes
echo 'echo asked >> '"$work"'/asked; echo "Host not found: 3(NXDOMAIN)"; exit 1' > answer
for domain in -oX --help '' .. ../.. /etc/passwd '*' '@127.0.0.1' 'a b' "$(printf 'a\nb')" '$(touch x)' '`touch x`' "[127.0.0.1]/"; do
  check "the domain $(printf %s "$domain" | tr '\n' /)" "$(deliver "$domain" a@x "b@y" | cut -c 1)" D
done
check "no name was asked for" "$(cat asked 2> noise)" ""
echo ":127.0.0.1:$port" > queue/control/smtproutes
outside
for recipient in -oX@y --help@y ../..@y '*@y' '`touch`@y' '$HOME@y' 'a%b@y' '@y' 'a@b@y' '%s%n@y' '\0@y'; do
  rm -f got/*
  [ "$recipient" = '\0@y' ] && wanted="" || wanted="<$recipient> "
  deliver y a@x "$recipient" > report
  check "the recipient $recipient" "$(got Rcpt)" "$wanted"
done
rm -f got/*
for recipient in '' '$(touch x)@y' "$(printf 'b\nRSET@y')" 'a b@y' '"a b"@y' 'b,c@y' 'b;c@y' 'g:b@y' '(c)b@y' 'x> <b@y' 'b>@y' 'b\c@y' "$(printf 'b\r@y')"; do
  check "the recipient $(printf %s "$recipient" | tr '\n\r' '//') is refused" "$(deliver y a@x "$recipient" | cut -c 1)" D
done
check "and the host outside wasn't told" "$(got Rcpt)" ""
for sender in -oX --help@x ../.. '*' '$(touch x)' '#@[]' '"a b"@x' 'a:b@x' '-f' 'a%b@x' '%u%h%%@x'; do
  rm -f got/*
  check "the sender $sender" "$(deliver y "$sender" b@y)$(got Mail)" "$taken<$sender> "
done
rm -f got/*
for sender in "$(printf 'a\nRSET')" 'a> SIZE=1' '<a@x>' "$(printf 'a\r@x')" %U@x a@%H '%C' 'a%%Mb@x'; do
  check "the sender $(printf %s "$sender" | tr '\n\r' '//') is refused" "$(deliver y "$sender" b@y | cut -c 1)" D
done
check "and the host outside wasn't told" "$(got Mail)" ""
check "nothing of it was run" "$(ls x 2> noise)" ""
[ "$bad" = 0 ] && echo "all as it should be"
exit "$bad"
