# `make demo` builds the program and runs it on the sample files; `make test` passes all checks. `make try` runs the main
# sample before anything is proved.

# A folder with further cases and their comparer, where one lies beside the checkout.
CASES ?= ../shared/cases
CASE_SETS = first-path first-path-refused middleboxes middleboxes-refused ring loss crash check check-refused ports \
	watch watch-refused make
# Runs by workers make one journal or another, so they are judged by a check.
JUDGED_SETS = middleboxes ring loss crash

SOURCES := $(shell find crates crates.txt -name out -prune -o -type f -print)

.PHONY: build demo try test fmt edits lines wakes trial refusals bench install uninstall clean

# Where `make install` puts the program and its manual page.
PREFIX ?= /usr/local
DESTDIR ?=

build: bin/ftc

# `rt all check` proves the crates and builds the libraries, as many at a time as there are processors, each with 6 GB.
# `rt run` builds the program then, and runs it once.
MOST_JOBS = /^MemAvailable/ { n = int($$2 / 6000000); print n < 1 ? 1 : n < cores ? n : cores }
JOBS ?= $(shell awk -v cores="$$(nproc)" '$(MOST_JOBS)' /proc/meminfo)
SAMPLE = ../../examples/monitors
bin/ftc: $(SOURCES)
	rt all check --jobs $(JOBS)
	mkdir -p bin out
	cd crates/ftc && rt run -- run $(SAMPLE)/chain $(SAMPLE)/script $(SAMPLE)/capture.pcap \
		../../out/first.pcap ../../out/first.journal ../../out/first.report
	cp crates/ftc/out/ftc bin/ftc

demo: bin/ftc
	./examples/demo bin/ftc out/demo

# The sample in which a server crashes and comes back, run by a program that isn't proved and is thrown away: it is there
# in a minute or two, where the first `make demo` proves everything first.
CRASH = $(CURDIR)/examples/crash
TRIED = $(CURDIR)/out/try
try:
	mkdir -p $(TRIED)
	cd crates/ftc && rt try -- run $(CRASH)/chain $(CRASH)/script $(CRASH)/capture.pcap \
		$(TRIED)/out.pcap $(TRIED)/journal $(TRIED)/report --alone $(CURDIR)/examples/schedule
	cat $(TRIED)/report
	@echo "out/try has the packets that came out, the journal and the report of this run; no proof stands behind it"

# `rt ci` leaves the program that it proved, built and ran in its crate's folder: what follows tries that very program.
test:
	rt ci
	mkdir -p bin
	cp crates/ftc/out/ftc bin/ftc
	edits/try --match
	docs/reading
	docs/names
	$(MAKE) lines wakes
	@if [ -x "$(CASES)/compare" ]; then \
		FTC="$$PWD/bin/ftc" "$(CASES)/compare" examples/alone $(addprefix $(CASES)/,$(CASE_SETS)) && \
		"$(CASES)/judge" bin/ftc $(addprefix $(CASES)/,$(JUDGED_SETS)); \
	fi

# Formats all crates. The gate refuses a crate of which a single line isn't as the formatter writes it.
fmt:
	@for crate in crates/*/; do (cd "$$crate" && rt fmt) || exit 1; done

# The edits beyond those that `make test` tries. All of them take as long as the rest of it; `edits/try CRATE` tries one
# crate's.
edits:
	edits/try

# What the program says on standard error and on standard output, and its exit codes.
lines: bin/ftc
	./examples/lines bin/ftc out/lines

# Small runs of many workers, each of which has to end in time: some seconds.
wakes: bin/ftc
	./examples/wakes bin/ftc out/wakes

# Some hundreds of random chains with random captures, scripts and schedules, each run checked. Each time they are
# others, by a seed that is told.
trial: bin/ftc
	./examples/trial bin/ftc out/trial

# What the program does where memory is refused, at each allocation of small runs and of the other commands: it takes
# some minutes.
refusals: bin/ftc out/librefuse.so
	./examples/refusals bin/ftc out/librefuse.so out/refusals

out/librefuse.so: examples/refuse.rs
	mkdir -p out
	rustc --edition 2024 --crate-type cdylib -O -o $@ $<

# The times of the calls on which each hop of a packet stands, and of whole runs and checks.
bench: bin/ftc bin/ftc_bench
	bin/ftc_bench bench
	./examples/bench bin/ftc out/bench

bin/ftc_bench: $(SOURCES)
	mkdir -p bin
	cd crates/ftc_bench && rt run
	cp crates/ftc_bench/out/ftc_bench bin/ftc_bench

install: bin/ftc
	install -d $(DESTDIR)$(PREFIX)/bin $(DESTDIR)$(PREFIX)/share/man/man1
	install -m 755 bin/ftc $(DESTDIR)$(PREFIX)/bin/ftc
	install -m 644 man/ftc.1 $(DESTDIR)$(PREFIX)/share/man/man1/ftc.1

uninstall:
	rm -f $(DESTDIR)$(PREFIX)/bin/ftc $(DESTDIR)$(PREFIX)/share/man/man1/ftc.1

clean:
	rm -rf bin out crates/*/out
