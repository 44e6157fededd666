# make test: the gate
# make run: document 01's schedule, on the proved program
# make lib: the proved archive for this machine and its header, build/MACHINE/libforkcanyon.a and build/forkcanyon.h
# make install PREFIX=dir: both there, with a pkg-config file
# make story: a backup scan seen from far away, here and in a plain replica
# make policy: a month of a policy that moves cold files, here, with scans that make them look fresh, and with gets for looks
# make tiers: two sites that disagree on a file's tier for good, before request (e) of document 02 and now
# make closed: a branch that stops applying, and the puts of the others before and after it is retired
# make play FILE=x.sched: a schedule written as text, beside its answers
# make draw FILE=x.sched: the same as a picture, build/x.svg
# make table FILE=x.sched: the table that a schedule leaves, as bytes, build/x.table
# make waits FILE=build/x.table: of each link of a table, whether it is ready or what it waits for
# make soak SECONDS=n: random schedules and random calls, half of the time each
# make bench: the library against the second program, in turns
# make lists: what an update carries with our lists and with short ones, in a month of eight sites; drawn as build/lists.svg
# make times: the proving seconds of each crate, from nothing
.PHONY: help test run lib install story policy tiers closed play draw table waits soak bench lists times

PREFIX ?= /usr/local
SECONDS ?= 600
CFLAGS ?= -O2
STRICT := -std=c11 -Wall -Wextra -Werror -pedantic
# Folders too: theirs is the time at which a file in them went.
SOURCES := crates.txt $(shell find $(wildcard crates/*/src crates/*/specs crates/*/proofs))
PROGRAM := crates/run_schedule/out/run_schedule
ARCHIVE := build/$(shell uname -m)/libforkcanyon.a
# LIBRARY=file: another archive to install
LIBRARY ?= $(ARCHIVE)

help:
	@grep -hE '^# make ' Makefile | sed 's/^# //'

test:
	@.ci/run

$(ARCHIVE): $(SOURCES) tools/archive
	tools/archive

$(PROGRAM): $(SOURCES)
	cd crates/run_schedule && rt run </dev/null >/dev/null
	@touch $@

run: $(PROGRAM)
	@tools/sched encode docs/scope.sched | tools/run_schedule

lib: $(LIBRARY)
	@mkdir -p build
	@install -m 644 include/forkcanyon.h build

install: lib
	install -d $(DESTDIR)$(PREFIX)/include $(DESTDIR)$(PREFIX)/lib/pkgconfig
	install -m 644 build/forkcanyon.h $(DESTDIR)$(PREFIX)/include
	install -m 644 $(LIBRARY) $(DESTDIR)$(PREFIX)/lib/libforkcanyon.a
	sed 's|@PREFIX@|$(abspath $(PREFIX))|' include/forkcanyon.pc.in >$(DESTDIR)$(PREFIX)/lib/pkgconfig/forkcanyon.pc

story: lib
	@$(CC) $(STRICT) $(CFLAGS) -Ibuild examples/backup_scan.c $(LIBRARY) -o build/backup_scan
	@build/backup_scan

policy: lib
	@$(CC) $(STRICT) $(CFLAGS) -Ibuild examples/cold_policy.c $(LIBRARY) -o build/cold_policy
	@build/cold_policy

tiers: lib
	@$(CC) $(STRICT) $(CFLAGS) -Ibuild examples/two_tiers.c $(LIBRARY) -o build/two_tiers
	@build/two_tiers

closed: lib
	@$(CC) $(STRICT) $(CFLAGS) -Ibuild examples/closed_branch.c $(LIBRARY) -o build/closed_branch
	@build/closed_branch

play: $(PROGRAM)
	@tools/sched play "$(FILE)"

draw: $(PROGRAM)
	@mkdir -p build
	@tools/spacetime "$(FILE)" >build/$(basename $(notdir $(FILE))).svg

build/table build/waits: build/%: tools/%.c lib
	@$(CC) $(STRICT) $(CFLAGS) -Ibuild $< $(LIBRARY) -o $@

table: build/table
	@tools/sched plain "$(FILE)" >build/table.text
	@build/table <build/table.text >build/$(basename $(notdir $(FILE))).table

waits:
	@tools/waits "$(FILE)"

soak:
	@SECONDS_TO_RUN=$$(($(SECONDS) / 2)) tests/schedules/run
	@SECONDS_TO_RUN=$$(($(SECONDS) / 2)) tests/host/run

bench:
	@bench/run

lists: lib
	@$(CC) $(STRICT) $(CFLAGS) -Ibuild -Itests/harness bench/lists/lists.c $(LIBRARY) -o build/lists
	@build/lists build/lists.tsv
	@python3 bench/lists/plot.py build/lists.tsv >build/lists.svg

times:
	@tools/times
