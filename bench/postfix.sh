# bench/postfix.sh: read by bench/rates.sh and bench/latency.sh, and no script of its own: a Postfix with its own configuration, queue
# and log below the current directory, for 20 users whose homes are there too, by root. Nothing of the machine is changed: the users
# are in a copy of /etc/passwd that only a shell of `own_users` and what that starts see. All is on loopback addresses.
work_beside_postfix() { # [DIR]: into a fresh directory, $work, below DIR if that is told; it goes at the end, and so do Postfix and those
  # whose numbers `running` prints
  work=$(mktemp -d ${1:+-p "$1"})
  with_postfix=
  trap end_beside_postfix EXIT
  cd "$work" || exit 1
  chmod 711 .
}

end_beside_postfix() {
  [ -z "$with_postfix" ] || own_users postfix -c "$work/postfix/etc" stop 2> noise
  kill -CONT $(running) 2> noise
  kill $(running) 2> noise
  wait
  rm -rf "$work"
}

postfix_service() { # NAME TYPE PRIVATE UNPRIVILEGED WAKEUP MOST: a line of master.cf
  echo "$1 $2 $3 $4 n $5 $6 ${7:-$1}"
}

make_postfix() { # PORT: of the host outside
  mkdir -p postfix/etc postfix/queue postfix/data postfix/log postfix/home
  chown postfix postfix/data
  cat > postfix/etc/main.cf <<END2
compatibility_level = 3.6
queue_directory = $PWD/postfix/queue
data_directory = $PWD/postfix/data
mail_owner = postfix
setgid_group = postdrop
inet_interfaces = loopback-only
myhostname = h.example
mydestination = localhost
home_mailbox = Maildir/
local_recipient_maps =
alias_maps =
alias_database =
maillog_file = $PWD/postfix/log/log
maillog_file_prefixes = $PWD/postfix/log
relayhost = [127.0.0.1]:$1
smtp_destination_recipient_limit = 1
END2
  { postfix_service pickup unix n - 60 1
    postfix_service cleanup unix n - - 0
    postfix_service qmgr unix n - 300 1
    postfix_service rewrite unix - - - - trivial-rewrite
    for name in bounce defer trace; do postfix_service "$name" unix - - - 0 bounce; done
    for name in error retry; do postfix_service "$name" unix - - - - error; done
    for name in proxymap smtp; do postfix_service "$name" unix - - - -; done
    postfix_service local unix - n - -
    postfix_service scache unix - - - 1
    postfix_service postlog unix-dgram n - - 1 postlogd; } > postfix/etc/master.cf
  cp /etc/passwd postfix/passwd
  for user in $(seq 20); do
    mkdir -p "postfix/home/u$user"
    echo "u$user:x:$((3000 + user)):3000::$PWD/postfix/home/u$user:/bin/sh" >> postfix/passwd
    chown $((3000 + user)):3000 "postfix/home/u$user"
  done
}

own_users() { # COMMAND..: with that copy as /etc/passwd
  unshare --mount sh -c 'mount --bind postfix/passwd /etc/passwd && exec "$@"' sh "$@"
}
