#!/usr/bin/env bash
# bench/bare.sh N [DIR]: what the file system alone takes for N injections. One process of perl(1) makes the file calls of
# N injections of a small message, one after the other, in a fresh directory below DIR (that of temporary files if none is
# told); then the same without the sync of the directory after each link. Prints how many a second. Nothing else is done:
# no input is read or checked, no directory is looked for, and no process is started for each, as bench/queue.sh does.
set -eu
count=${1:?usage: bench/bare.sh N [DIR]}
command -v perl > /dev/null || { echo "skipped: there is no perl"; exit 0; }
work=$(mktemp -d ${2:+-p "$2"})
trap 'rm -rf "$work"' EXIT

run() { # SYNCS: 1 with the syncs of directories, 0 without
  mkdir -p "$work/$1/pid" "$work/$1/intd" "$work/$1/todo" "$work/$1/mess"
  for split in $(seq 0 22); do mkdir "$work/$1/mess/$split"; done
  perl -e '
    use strict;
    use Fcntl;
    use IO::Handle;
    use Time::HiRes "time";
    my ($queue, $count, $syncs) = @ARGV;
    chdir $queue or die;
    my $message = "Received: (qmail 77 invoked by uid 0); 27 Nov 2026 00:00:00 -0000\nSubject: hello\n\nhello\n";
    my $envelope = "u0\0p77\0Fs\@example.org\0Tr\@example.org\0";
    sub create { sysopen my $file, $_[0], O_RDWR | O_CREAT | O_EXCL | O_APPEND, 0644 or die; $file }
    sub fill { my ($file, $text) = @_; syswrite($file, $text) == length $text or die; $file->sync or die }
    sub name {
      my ($old, $dir, $new) = @_;
      link $old, "$dir/$new" or die;
      return unless $syncs;
      sysopen my $open, $dir, O_RDONLY or die;
      $open->sync or die;
    }
    my $begun = time;
    for my $k (1 .. $count) {
      my $file = create("pid/77.0.$k");
      my $n = (stat $file)[1];
      name("pid/77.0.$k", "mess/" . $n % 23, $n);
      unlink "pid/77.0.$k" or die;
      fill($file, $message);
      fill(create("intd/$n"), $envelope);
      name("intd/$n", "todo", $n);
    }
    my $spent = time - $begun;
    printf "%s: %d in %.2f seconds, %.0f a second\n",
      $syncs ? "with the syncs of directories" : "without them", $count, $spent, $count / $spent;
  ' "$work/$1" "$count" "$1"
}

run 1
run 0
