# make run         builds the programs, proved; plays a stored week, and prints the record of a stored frame and the view of a stored day
# make test        the gate: proves every crate, tries the must-fail edits, runs programs and tests, compares with the model
# make crosscheck  compares weekbook and setbook with the model in Python
# make picture     draws the stored week anew
# make bench       compares pipebench with the same in plain Rust and writes docs/SPEED.md; it wants rustc and valgrind

PROGRAMS = weekbook setbook frameview dayview

.PHONY: run test crosscheck picture bench

run:
	@tests/build $(PROGRAMS)
	@target/bin/weekbook < examples/market.week
	@target/bin/frameview reading < examples/day.reading.frame
	@target/bin/dayview reading 4 0 2 < examples/market.reading.4.0.2.day

test:
	@tests/gate

crosscheck:
	@tests/build weekbook setbook
	@tests/crosscheck

picture:
	@python3 tools/picture.py reading bench examples/market.week examples/market.book > docs/week.svg

bench:
	@bench/run
