# make try       plays a first message at once, call by call; nothing is proved
# make play      proves and builds the program, then plays the same message
# make build     leaves the proved program at ./qmail
# make examples  plays each example with ./qmail and compares what it prints
# make streams   checks what ./qmail writes to its two streams, and its exit status
# make host-checks  runs the checks over real processes and directories, as root, with QMAIL (./qmail); they take half an hour
# make test      runs the gate: every proof, the must-fail edits, the tests and the stored runs

.PHONY: try play build examples streams host-checks test

try:
	@echo "Unproved: this only runs the code. 'make play' proves it first."
	cd crates/qmail_cli && rt try -- play < ../../examples/first_message.play
	@echo "Nothing was proved."

play: build
	./qmail play < examples/first_message.play

build:
	bench/build.sh

examples: build
	@for script in examples/*.play; do \
		name=$$(basename $$script .play); \
		./qmail play < $$script | cmp - examples/$$name.out || exit 1; \
		cmp $$script crates/test_plays/data/$$name.play || exit 1; \
		cmp examples/$$name.out crates/test_plays/data/$$name.out || exit 1; \
		echo "$$name ok"; \
	done

streams: build
	bench/streams.sh

# what tells by its exit status alone whether all is well, the short ones first
host-checks:
	@bad=; out=$$(mktemp); \
	for check in streams.sh "queue.sh 20" refused.sh crowd.sh kill.sh clean.sh audit.sh "large.sh 64" msmtp.sh mailfront.sh qmqp.sh \
		deliver.sh send.sh attack.sh host.sh powercut.sh storm.sh; do \
		if QMAIL=$(abspath $(QMAIL)) bench/$$check > $$out 2>&1; then echo "well: $$check"; \
		else bad=1; tail -n 20 $$out; echo "not well: $$check"; fi; \
	done; rm $$out; [ -z "$$bad" ]

test:
	rt ci

# make install  puts QMAIL (./qmail), its manual pages, contrib's programs and the units for systemd below PREFIX, /usr/local if
# none is given. The programs find each other there; `run` for runit or daemontools is below lib/qmail
PREFIX = /usr/local
QMAIL = qmail
PROGRAMS = qmail-queue qmail-qmqpd qmail-send qmail-first-queue remote-msmtp
UNITS = qmail-send.service qmail-qmqpd.socket qmail-qmqpd@.service
INTO = $(DESTDIR)$(PREFIX)

.PHONY: install

install:
	@test -x $(QMAIL) || { echo "there is no $(QMAIL) yet: make build"; exit 1; }
	install -d $(INTO)/bin $(INTO)/share/man/man1 $(INTO)/share/man/man8 $(INTO)/lib/qmail $(INTO)/lib/systemd/system
	install -m 755 $(QMAIL) $(INTO)/bin/qmail
	for name in $(PROGRAMS); do \
		sed 's:/usr/local:$(PREFIX):g' contrib/$$name > $(INTO)/bin/$$name && chmod 755 $(INTO)/bin/$$name || exit 1; \
	done
	sed 's:/usr/local:$(PREFIX):g' contrib/run > $(INTO)/lib/qmail/run && chmod 755 $(INTO)/lib/qmail/run
	for name in $(UNITS); do \
		sed 's:/usr/local:$(PREFIX):g' contrib/$$name > $(INTO)/lib/systemd/system/$$name || exit 1; \
	done
	install -m 644 man/*.1 $(INTO)/share/man/man1
	install -m 644 man/*.8 $(INTO)/share/man/man8
