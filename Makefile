# The commands of the project. `make test` is the gate.
SHELL := /bin/bash
.SHELLFLAGS := -euo pipefail -c
.PHONY: test house programs run twelve published refusals lib timed soak store slow bench count stack fmt

cargo = cargo $(1) --quiet --offline --release --manifest-path rust/Cargo.toml

# Every proof, must-fail edit and program run, and the layout; then the tests in Rust, which call the proved library and the programs.
# An edit that cannot be applied shows nothing of a contract, so it fails this. The last line is that of `rt ci`.
test: house
	log=$$(mktemp); trap 'rm -f "$$log"' EXIT; rt ci | tee "$$log"; if grep -qE '^rt: ok.*, [0-9]+ bad' "$$log"; then echo 'a must-fail edit cannot be applied'; exit 1; fi; $(MAKE) --no-print-directory lib programs; $(call cargo,test); tail -n 1 "$$log"

# What a reader must believe stands in specs/: no definition there, and no contract, may be borrowed from a proof. What stands in
# `Rattle.std.proofs` is the library's own, and there only its definitions are named.
house:
	if grep -rnE 'use Rattle\.[^ ]*proofs\.' crates/*/specs crates/*/src | grep -v 'use Rattle\.std\.proofs\.'; then echo 'a definition is borrowed from a proof: move it to specs/'; exit 1; fi

# The programs for people: target/bin/ask, write_sheet and check_sheet. rt runs what it has built, here on no input and no words.
programs:
	mkdir -p target/bin
	for name in ask write_sheet check_sheet; do (cd crates/$$name && rt run < /dev/null > /dev/null && cp out/$$name ../../target/bin/); done

# A question asked, its sheet written and checked, as README shows.
run: programs
	examples/whole-run

# FORMAT 9.3 and 9.5: the twelve cases, and the shortcuts that are wrong, with both answers and the rows that show a no.
twelve:
	cd crates/twelve && rt run

# The published examples of two reports: what the report says, and our verdicts, as irrelevant/computable.
published:
	cd crates/published && rt run < stdin

# The reader on byte strings for each number that says no, at several places: number and place, and what was changed.
refusals:
	cd crates/refusals && rt run < stdin

# The library for C and Rust: target/staticlib/libcapi.a, with include/slushtrowel.h.
lib:
	cd crates/capi && rt lib | tail -n 1
	mkdir -p target/staticlib
	cp crates/capi/out/libcapi.a target/staticlib/

# The library against the independent implementation, for so many seconds from a seed.
LONG ?= 600
SEED ?= 1
soak: lib
	$(call cargo,run) -p diff --bin soak -- $(LONG) $(SEED)

# The definitions over contents against SQLite, which must be installed; not a part of the gate. So many cases from a seed.
CASES ?= 2000
store:
	$(call cargo,run) -p samples --bin store -- $(CASES) $(SEED) | sqlite3 -batch -bail -list -noheader :memory: | awk '{ print } END { exit !/ cases, 0 differ;/ }'

# The library as it is timed: on a machine that isn't x86-64, the same code compiled for that machine.
ifeq ($(shell uname -m),x86_64)
timed: lib
else
timed:
	rust/native-lib.sh
bench slow count stack: export SLUSHTROWEL_LIB := $(CURDIR)/target/native
endif

# A search for the slowest answers, for so many seconds from a seed: the worst of each routine with its question.
SECONDS ?= 120
slow: timed
	$(call cargo,run) -p diff --bin slow -- $(SECONDS) $(SEED)

# Times of verdicts, sheets and checks, verdicts beside z3's; and by the number of vertices. Installs z3 if it isn't there.
bench: timed
	rust/bench-setup.sh
	$(call cargo,run) -p diff --bin bench
	$(call cargo,run) -p diff --bin pace

# Instructions of verdicts, sheets and checks, as valgrind counts them; with a WORD, of the loads that have it in their names.
WORD ?=
count: timed
	$(call cargo,run) -p diff --bin count -- $(WORD)

# The most stack that a verdict, a sheet and a check take, by painting a thread's stack.
stack: timed
	$(call cargo,run) -p diff --bin stack

fmt:
	for crate in crates/*/; do (cd $$crate && rt fmt); done
