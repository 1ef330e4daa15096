# What `make` prints of ten seeds is played: each of the thirty mails is accepted, and nobody is left waiting. QMAIL is the program;
# without it that of the parent.

qmail=${QMAIL:-/proc/$PPID/exe}

for seed in 0 1 2 10 100 1000 10000 32768 50000 65536; do
    "$qmail" make $seed 30 | "$qmail" play
done
