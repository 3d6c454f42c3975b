# ipcd: the commands of this repository. They need the Rattle toolchain's `rt` on the path and Python, `runs`, `edits`
# and `bench` also awk, `bench-serve` a C compiler, `memory` a C compiler to refuse allocations, and `serves` one to watch
# and refuse calls of the system: without it these two say so, and refuse nothing. `runs` renders the manual pages if
# there are man and groff. `clients` says so without a C compiler, and of each other toolchain that is not here, and
# tests the clients in Python all the same; its memcheck needs valgrind.

.PHONY: help try run test edits imports runs serves clients memory trials program install dist deb image verify peers \
	bench bench-serve bench-clients bench-peers chaos power mirror volume

help:
	@echo "make try    a first look, in about 90 seconds, with nothing proved: a message is sent, the machine stops, and the"
	@echo "            message is received; each frame in words and bytes"
	@echo "make run    proves and builds what is needed, an hour or more the first time, and shows its progress; then it runs"
	@echo "            examples/device.sh: a message outlives the program. It may be interrupted: proved crates stay proved,"
	@echo "            and the next run resumes after them"
	@echo "make install  puts below PREFIX (default /usr/local), in DESTDIR: the program that 'make program' has built, the"
	@echo "            manual pages, the systemd unit with ipcd-notify, and the files for systemd-sysusers and systemd-tmpfiles"
	@echo "make dist   packs what is built: out/ipcd-VERSION.tar.gz, with what 'make install' puts below PREFIX, documents,"
	@echo "            examples, clients, 'try' for a first session, and a MANIFEST of the commit, the toolchain's logic and"
	@echo "            sums, and of the last line of the gate if 'make dist GATE=FILE' has what it printed. It needs git"
	@echo "make deb    packs what is built as Debian packages in out/: ipcd, libipcd0, libipcd-dev, ipcd-run, python3-ipcd. It"
	@echo "            needs git and dpkg-deb"
	@echo "make image  packs what is built as an image of containers, an OCI layout in one file in out/, with a small"
	@echo "            init and a health check, and without a shell. It needs git and a C compiler, and no daemon"
	@echo "make verify FILE=..  whether a program, or the one in a tarball, a package or an image, is the one that is"
	@echo "            built here"
	@echo "make test   the gate, over an hour on four cores: 'make imports'; whether the records of mutants are of today's"
	@echo "            sources; every proof, the mutants that stand for a promise, the programs; and then, on what the gate has"
	@echo "            built, 'make trials', 'make runs', 'make serves', 'make clients' and 'make memory'"
	@echo "make edits  the other mutants, of all crates, or of those of 'make edits CRATE=\"ipc_wire ipc_hub\"', and writes"
	@echo "            their records. Up to six take 15 to 90 CPU seconds, if their crate is proved here"
	@echo "make imports  that no crate names what is another's own, nor one that carries requests a call"
	@echo "make runs   the program on scripts, also random ones beside models of semaphore sets and of System V segments,"
	@echo "            command lines, a terminal and devices: its output, its exit status, and the file that it leaves; what"
	@echo "            'make install' puts where, what 'make try' shows; and the documents: links, paths, manual pages,"
	@echo "            pictures and style"
	@echo "make serves the program as a server, three minutes once built: dozens of clients, crashes under load, what ends a"
	@echo "            connection, what docs/OPERATIONS.md tells operators, readiness for systemd, containers, clusters; 'list', 'backup'"
	@echo "            and 'check' of its device; the sessions of README.md; the examples serve.sh (a message outlives a crash), users.sh"
	@echo "            (two users of a queue), worker.sh (two wait for jobs), lock.sh (the holder of a lock is killed) and"
	@echo "            notify.sh (a message notifies a client); dozens of waiting calls; how late deadlines are, and an idle"
	@echo "            server; semaphore sets, POSIX queues, named semaphores and segments of both kinds; and its system calls,"
	@echo "            watched, and each refused in turn"
	@echo "make clients  builds the C library, ipcd-run, which runs unchanged programs, and ipcd-ask, which asks a server in"
	@echo "            words, and tests them and the Python package on the program, eight minutes once built: beside the"
	@echo "            system's own objects, over kills, with a false server, under sanitizers, and built by other compilers;"
	@echo "            other people's programs that are installed, as 'make peers' runs them; the clients in Go, Rust, Node and"
	@echo "            Java, as far as their toolchains are here; and what 'make dist', 'make deb' and 'make image' pack, the"
	@echo "            same bytes from two folders. 'make install' puts the C clients below PREFIX, if built"
	@echo "make peers  other people's programs on the kernel's objects and through ipcd-run; as uid 0 it installs them"
	@echo "make memory the programs with each allocation refused in turn: of a script, of a listing, an opening and a copy of"
	@echo "            what it leaves, and of each public call that may need memory, by itself"
	@echo "make trials scripts that are stopped at each call on their disk, with each choice of what a crash keeps, or of which"
	@echo "            one call fails, openings and formats too: what opens is what was answered, or one line more; a stopped or"
	@echo "            failing upgrade: what it leaves is of either version, with all that was there; devices with each byte"
	@echo "            wrong; frames that are cut off or changed; as much of everything as the limits allow; and what one"
	@echo "            release of requests of one moment writes"
	@echo "make chaos  random clients over all calls, while servers and clients are killed, power and disks fail and clocks are"
	@echo "            stepped; a judge finds an order of the calls that explains each answer, and has to find out three"
	@echo "            wrong programs first. Three minutes, with a C compiler; no part of 'make test'. 'make chaos SEED=1"
	@echo "            SECONDS=60 TURNS=5' has more. docs/CHAOS.md says what was found"
	@echo "make power  the program in a virtual machine whose power fails, again and again, on ext4, xfs and btrfs, each with"
	@echo "            three disks: what was answered is there at the next boot. File systems and disks that lie, a program"
	@echo "            that replies before its commit and one whose syncs do nothing have to be found out first. 20 boots,"
	@echo "            'make power N=200' more, some ten seconds each. It needs qemu, busybox, mkfs of each, cpio, a C"
	@echo "            compiler, and a kernel with modules, below KERNEL=FOLDER if not here; no part of 'make test'"
	@echo "make mirror a device on two hosts, which are network namespaces: the one that serves is killed or cut off under load,"
	@echo "            and the other takes over; what was answered on the one is there on the other. Six rounds, 'make mirror"
	@echo "            N=30' more, some seven seconds each. It needs uid 0, ip, FUSE and qemu-storage-daemon; no part of 'make test'"
	@echo "make volume a device on a volume of GlusterFS that three such hosts keep: the one that serves fails, another takes"
	@echo "            over. Three rounds, 'make volume N=30' more, some 40 seconds each. It needs uid 0, ip, FUSE and glusterd;"
	@echo "            no part of 'make test'"
	@echo "make bench  CPU time of runs, lines, saves and ticks, peak memory, what a commit and a save write, commits a second"
	@echo "            on a file beside the same bare writes and syncs, messages of deep queues, as ratios, and an upgrade of a"
	@echo "            full device. It ends with an error if calls that wait on other queues or a deep queue add more to a"
	@echo "            request than they may, or an upgrade takes more than 3 seconds of CPU time"
	@echo "make bench-clients  what a call through the library costs beside frames by hand, and the kernel's queues"
	@echo "make bench-serve  sends and receives, locks, writes and reads of segments, and hand-overs by named semaphores"
	@echo "            a second over the socket, beside the same bare, and their CPU time; how many requests share a sync; what"
	@echo "            waiting calls cost others; and what a file of figures costs. It ends with an error if one misses its bar"
	@echo "make bench-peers  messages of ipcd beside those of redis, beanstalkd, PostgreSQL and SQLite, as far as they are"
	@echo "            installed: rates and latencies on one disk, a table and a plot, out/peers.svg. A quarter of an hour"

try:
	@sh examples/try.sh

run: program
	@sh examples/device.sh crates/ipcd/out/ipcd

# The crates that the program stands on, and it: no tests, no edits. tools/shares.txt says about how long each takes.
program:
	@python3 tools/build.py

# It builds nothing, so that it may be run by another user than the one who builds.
PREFIX = /usr/local
UNITS = $(PREFIX)/lib/systemd/system
BUILT = crates/ipcd/out/ipcd

install:
	@[ -x "$(BUILT)" ] || { echo "there is no $(BUILT): 'make program' comes first" >&2; exit 1; }
	install -d "$(DESTDIR)$(PREFIX)/bin" "$(DESTDIR)$(PREFIX)/libexec/ipcd" "$(DESTDIR)$(PREFIX)/share/man/man8" \
		"$(DESTDIR)$(PREFIX)/share/man/man7" "$(DESTDIR)$(PREFIX)/share/man/man5" "$(DESTDIR)$(UNITS)" \
		"$(DESTDIR)$(PREFIX)/lib/sysusers.d" "$(DESTDIR)$(PREFIX)/lib/tmpfiles.d"
	install -m 0755 "$(BUILT)" "$(DESTDIR)$(PREFIX)/bin/ipcd"
	install -m 0755 contrib/ipcd-notify "$(DESTDIR)$(PREFIX)/libexec/ipcd/ipcd-notify"
	install -m 0644 docs/ipcd.8 "$(DESTDIR)$(PREFIX)/share/man/man8/ipcd.8"
	install -m 0644 docs/ipcd-protocol.7 "$(DESTDIR)$(PREFIX)/share/man/man7/ipcd-protocol.7"
	install -m 0644 docs/ipcd-device.5 "$(DESTDIR)$(PREFIX)/share/man/man5/ipcd-device.5"
	install -m 0644 contrib/ipcd.sysusers "$(DESTDIR)$(PREFIX)/lib/sysusers.d/ipcd.conf"
	install -m 0644 contrib/ipcd.tmpfiles "$(DESTDIR)$(PREFIX)/lib/tmpfiles.d/ipcd.conf"
	install -m 0644 contrib/ipcd.service "$(DESTDIR)$(UNITS)/ipcd.service"
	sed -i "s|/usr/local/|$(PREFIX)/|g" "$(DESTDIR)$(UNITS)/ipcd.service"
	@if [ -x clients/c/out/ipcd-run ]; then $(MAKE) -s -C clients/c install; \
		else echo "the clients in C are not built, so they are not installed: 'make clients' builds them"; fi

# What it packs is built before. GATE is a file with what `make test` has printed, if there is one.
GATE =
DIST = out

dist:
	@python3 tools/dist.py $(BUILT) $(DIST) $(GATE)

# It packs what is built, too. MAINTAINER is who answers for the packages.
DEBS = out

deb:
	@python3 tools/deb.py $(BUILT) $(DEBS)

# An image of containers, as one file. It compiles its first process, and packs what is built.
IMAGE = out

image:
	@python3 tools/image.py $(BUILT) $(IMAGE)

# FILE is a program, or a tarball, a package or an image with one.
verify:
	@python3 tools/verify.py $(BUILT) "$(FILE)"

REFUSE_EACH = python3 tests/scripts/refuse_each.py $(BUILT) crates/trials/out/trials crates/refusals/out/refusals

memory: program
	@python3 tools/build.py trials
	@python3 tools/build.py refusals
	@$(REFUSE_EACH)

# Each opening of each device that a stop leaves is stopped too, and each byte of a device is wrong once; of those the
# gate has each tenth. What comes after a stop of an upgrade is stopped too, of each tenth stop, in the gate of each
# hundredth, and a tenth as often if the upgrade is to version 3. Requests of one moment, fed to a hub by hand, are one
# batch: two writes and two syncs for three replies, and on a device of version 3 one write and one sync.
TRIAL = crates/trials/out/trials
EACH = 1
TRIALS = $(TRIAL) stopped 1 < crates/trials/stdin && $(TRIAL) faulted 1 < crates/trials/stdin && \
	$(TRIAL) stopped-3 1 < crates/trials/stdin && $(TRIAL) faulted-3 1 < crates/trials/stdin && \
	python3 tests/devices/upgraded.py $(TRIAL) $(EACH)0 && \
	python3 tests/devices/damaged.py $(BUILT) $(EACH) < tests/devices/damaged.script && \
	python3 tests/scripts/frames.py $(BUILT) && python3 tests/sockets/limits.py $(BUILT) && \
	test "$$($(TRIAL) batch)" = "a batch of 163 bytes, 2 writes, 2 syncs, 3 replies" && \
	test "$$($(TRIAL) batch-3)" = "a batch of 163 bytes, 1 writes, 1 syncs, 3 replies"

trials: program
	@python3 tools/build.py trials
	@$(TRIALS)

# It takes no time, and so it comes first.
imports:
	@sh tests/imports.sh

RUNS = sh tests/scripts/runs.sh crates/ipcd/out/ipcd && python3 tests/scripts/terminal.py crates/ipcd/out/ipcd && \
	python3 tests/scripts/words.py crates/ipcd/out/ipcd && python3 tests/scripts/vectors.py crates/ipcd/out/ipcd && \
	python3 tests/system/first_look.py crates/ipcd/out/ipcd && \
	python3 tests/scripts/scripts.py crates/ipcd/out/ipcd && \
	python3 tests/scripts/sets.py crates/ipcd/out/ipcd && python3 tests/scripts/segments.py crates/ipcd/out/ipcd && \
	python3 tests/system/install.py crates/ipcd/out/ipcd && \
	python3 tests/devices/device.py crates/ipcd/out/ipcd && python3 tests/devices/files.py crates/ipcd/out/ipcd && \
	python3 tests/devices/upgrade.py crates/ipcd/out/ipcd && python3 tests/system/documents.py

runs: program
	@$(RUNS)

SERVES = python3 tests/sockets/serve.py crates/ipcd/out/ipcd && python3 tests/system/operations.py crates/ipcd/out/ipcd && \
	python3 tests/sockets/on_time.py crates/ipcd/out/ipcd && python3 tests/system/notify.py crates/ipcd/out/ipcd && \
	python3 tests/devices/looks.py crates/ipcd/out/ipcd && python3 tests/devices/backups.py crates/ipcd/out/ipcd && \
	python3 tests/devices/check.py crates/ipcd/out/ipcd && python3 tests/sockets/metrics.py crates/ipcd/out/ipcd && \
	python3 tests/sockets/figures.py crates/ipcd/out/ipcd && \
	python3 tests/system/container.py crates/ipcd/out/ipcd && python3 tests/system/cluster.py crates/ipcd/out/ipcd && \
	python3 tests/system/session.py crates/ipcd/out/ipcd && python3 tests/system/shown_bytes.py crates/ipcd/out/ipcd && \
	sh examples/serve.sh crates/ipcd/out/ipcd && \
	sh examples/users.sh crates/ipcd/out/ipcd && sh examples/worker.sh crates/ipcd/out/ipcd && \
	sh examples/lock.sh crates/ipcd/out/ipcd && sh examples/notify.sh crates/ipcd/out/ipcd && \
	python3 tests/sockets/waiting.py crates/ipcd/out/ipcd && python3 tests/sockets/waiting_load.py crates/ipcd/out/ipcd && \
	python3 tests/sockets/semaphores.py crates/ipcd/out/ipcd && python3 tests/sockets/posix_queues.py crates/ipcd/out/ipcd && \
	python3 tests/sockets/named_objects.py crates/ipcd/out/ipcd && python3 tests/sockets/attachments.py crates/ipcd/out/ipcd && \
	python3 tests/system/calls.py crates/ipcd/out/ipcd && python3 tests/sockets/sockets.py crates/ipcd/out/ipcd && \
	python3 tests/scripts/script_calls.py crates/ipcd/out/ipcd && \
	python3 tests/scripts/tagged_calls.py crates/ipcd/out/ipcd && \
	python3 tests/sockets/version_three.py crates/ipcd/out/ipcd && python3 tests/system/costs.py crates/ipcd/out/ipcd

serves: program
	@$(SERVES)

# What is packed has the C clients, so it comes last.
CLIENTS = $(MAKE) -s -C clients/c tested PROGRAM=$(abspath $(BUILT)) && sh clients/python/test.sh $(BUILT) && \
	sh clients/test.sh $(BUILT) && python3 tests/system/dist.py $(BUILT) && python3 tests/system/deb.py $(BUILT) && \
	python3 tests/system/image.py $(BUILT) && python3 tests/system/reproducible.py $(BUILT)

clients: program
	@$(CLIENTS)

peers: program
	@$(MAKE) -s -C clients/c peers PROGRAM=$(abspath $(BUILT))

bench-clients: program
	@$(MAKE) -s -C clients/c bench PROGRAM=$(abspath $(BUILT))

test: EACH = 10
test: imports
	@python3 tests/edits.py --record
	rt ci
	@$(TRIALS)
	@$(RUNS)
	@$(SERVES)
	@$(CLIENTS)
	@$(REFUSE_EACH)

# For each crate that a change touches, and for all before a release. Each that is refused has a line in
# tests/edits.record, of which `make test` says whether it is of today's sources.
edits:
	@python3 tests/edits.py $(CRATE)

# TURNS of a run of SECONDS on a device of each kind. What was found is in docs/CHAOS.md.
SEED = random
SECONDS = 20
TURNS = 1

chaos: program
	@python3 tests/chaos/chaos.py $(BUILT) $(SEED) $(SECONDS) $(TURNS)

# N boots, spread over file systems and disks. What was seen is in docs/CHAOS.md.
N = 20
KERNEL ?= /

power: program
	@KERNEL=$(KERNEL) python3 tests/power/power.py $(BUILT) $(N) $(SEED)

# N rounds, each a failure of the host that serves and a takeover. What was seen is in docs/CHAOS.md.
mirror: N = 6
mirror: program
	@python3 tests/mirror/mirror.py $(BUILT) $(N) $(SEED)

volume: N = 3
volume: program
	@python3 tests/mirror/volume.py $(BUILT) $(N) $(SEED)

# Twenty groups of runs of each script, and turns of commits on a file. It needs awk and Python, and for the turns a C
# compiler. A bar that is missed ends it only when all is measured.
bench: program
	@sh bench/commits.sh $(BUILT)
	@status=0; sh bench/replay.sh $(BUILT) || status=1; echo; python3 bench/queues.py $(BUILT) || status=1; \
		echo; python3 bench/upgrade.py $(BUILT) || status=1; exit $$status

# Eight loads on ipcd and on what else is installed. A plot of them comes into the folder `out`.
bench-peers: program
	@python3 bench/peers.py $(BUILT)

# Nine turns of thirteen loads on a server, two loads of which the syncs are counted, and calls beside others that wait.
# It needs Python and a C compiler.
bench-serve: program
	@status=0; python3 bench/serve.py $(BUILT) || status=1; echo; python3 bench/syncs.py $(BUILT) || status=1; echo; \
		python3 bench/waiters.py $(BUILT) || status=1; echo; python3 bench/metrics.py $(BUILT) || status=1; \
		exit $$status
