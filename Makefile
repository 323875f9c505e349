# Builds and runs with Rattle's command rt; see README.md.

FILE ?= examples/counter.icnf
WORDS ?=
PREFIX ?= /usr/local
JOBS ?= $(shell nproc)

.PHONY: run try try-audit prove install examples test bench profile
.PHONY: bench-reader bench-checker bench-trace bench-learning bench-board bench-lock bench-service
.PHONY: bench-sums bench-layouts bench-holds bench-workers bench-dialogue
.PHONY: bench-instructions bench-memory hostile wanting races

# Proves what isn't proved yet, crates side by side, and says which; then builds the program and
# solves FILE.
run: prove
	@cd crates/tarmo_program && rt run < $(abspath $(FILE))

# Solves FILE within a minute by an unproved build that checks as it runs: for a first look. WORDS
# are those of the command, as in WORDS=--trace.
try:
	@cd crates/tarmo_program && rt try -- $(WORDS) < $(abspath $(FILE))

# Checks OUTPUT, what was written for FILE, by an unproved build of the audit.
try-audit:
	@cd crates/audit_program && rt try -- $(abspath $(FILE)) $(abspath $(OUTPUT))

# All crates, as many at a time as there are processors. A line for each that is proved.
prove:
	@bench/prove.sh $(JOBS)

# The solver and the audit into PREFIX/bin, as tarmo and tarmo_audit.
install: prove
	@cd crates/tarmo_program && rt run < /dev/null > /dev/null; true
	@cd crates/audit_program && rt run < /dev/null > /dev/null; true
	install -D crates/tarmo_program/out/tarmo_program $(DESTDIR)$(PREFIX)/bin/tarmo
	install -D crates/audit_program/out/audit_program $(DESTDIR)$(PREFIX)/bin/tarmo_audit

# The examples with the built program, and what they print beside what they should.
examples:
	examples/check.py

# What the merge gate runs: each proof from its sources, the edits that must fail, tests and programs.
test:
	.ci/run

# The built program beside the libraries of minisat, cadical and picosat where they are installed,
# on generated texts. ARGS=--quick takes the small ones.
bench:
	cd crates/tarmo_bench && rt run > /dev/null
	bench/measure.py $(ARGS)

# The summaries of `tarmo --sum N` for 21 numbers beside what the peers answer on the same texts.
bench-sums:
	bench/sums.py

# What three layouts of watch lists cost in one small solver that is no part of Tarmo.
bench-layouts:
	bench/layouts.py

# The twenty functions of the built program that take most instructions on FILE, by valgrind.
profile:
	bench/callgrind.py $(FILE)

# What more workers bring, and what a question through a pipe costs, with the built program.
bench-workers:
	bench/workers.py

bench-dialogue:
	bench/dialogue.py

# Instructions for each literal that propagation forces, beside MiniSat, by valgrind.
bench-instructions:
	cd crates/tarmo_bench && rt run > /dev/null
	bench/instructions.py

# Time and memory on five texts with many jobs, clauses or lessons, beside MiniSat.
bench-memory:
	cd crates/tarmo_bench && rt run > /dev/null
	bench/memory.py

# Which share of its time a worker of the built program spends in holds of the board, by uprobes.
bench-holds:
	bench/holds.py

# The built program where files, pipes and memory fail it; where each growth of its memory is refused
# in turn, on one worker and on four; and in 10,000 runs on 1 to 16 workers beside what all
# assignments say of their texts.
hostile: wanting races
	bench/hostile.py

wanting:
	bench/wanting.py --workers 1
	bench/wanting.py --workers 4

races:
	bench/races.py

# The reader beside cat, a C loop, and the parsers of minisat and cadical where they are installed.
bench-reader:
	cd crates/tarmo_bench && rt run > /dev/null
	bench/reader.sh

# A million steps of ten hints through the checker.
bench-checker:
	cd crates/tarmo_bench && rt run -- checker 1000000

# Trimming and printing a derivation of a million steps.
bench-trace:
	cd crates/tarmo_bench && rt run -- trimming 1000000

# A million jobs, each added, taken and ended.
bench-board:
	cd crates/tarmo_bench && rt run -- board 1000000

# A million clauses learnt from one conflict behind a trail of a million literals.
bench-learning:
	cd crates/tarmo_bench && rt run -- learning 1000000 1000000

# A hundred thousand holds of the lock beside std's Mutex, by 1, 2 and 4 threads.
bench-lock:
	cd crates/tarmo_bench && rt run -- lock 100000

# A hundred thousand calls of clients through the service, on a bare board, and round std's Mutex, by
# 1, 2 and 4 threads.
bench-service:
	cd crates/tarmo_bench && rt run -- service 100000
