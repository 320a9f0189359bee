# The targets need Rattle's command `rt` (README.md, "Try it").

NEED_RT = command -v rt > /dev/null || { echo "rt is missing: put the bin folder of a Rattle kit (rattle-kit-13b or later) on your PATH"; exit 1; }

NEED_CARGO = command -v cargo > /dev/null || { echo "cargo is missing: install Rust 1.88 or later (rustup.rs) to build the plain program of bench/"; exit 1; }

# The programs, and what they are built of.
PROGRAMS = crates/scimem/out/scimem crates/sciview/out/sciview crates/sci_station_timer/out/sci_station_timer
SOURCES = crates.txt HANDLES $(shell find crates -name out -prune -o -path '*_tests' -prune -o \( -name '*.rt' -o -name '*.antt' \) -print)

.PHONY: try run test check cosim bindings fmt bench calls growth instructions fuzz soak faults adversaries install build dist dist-twice library install-library plants cases examples charts pages clean

PREFIX = /usr/local

# Shows the first example of the README without a proof: a script, its schedule, its log, the audit, and a chart.
try:
	@$(NEED_RT)
	@scripts/make/try.sh

# Proves what scimem stands on, side by side, builds it and runs its stored example.
run:
	@$(NEED_RT)
	@scripts/gate/check.py scimem
	@cd crates/scimem && rt run -- $$(cat args) < stdin 2> ../../out/check/run.log || { cat ../../out/check/run.log >&2; exit 1; }
	@install -D crates/scimem/out/scimem out/bin/scimem

# The gate: every proof from nothing, the tests, and wrong bodies that must be refused; then the programs that it built, on the
# stored cases, the examples and charts; then programs and tests with memory, reads and writes refused. The last line is
# 'N passed, M failed'.
test:
	@$(NEED_RT)
	@scripts/gate/test.py

# Tries all wrong bodies, over the libraries that make test or make check has built; with CRATE=NAME those of that crate alone.
plants:
	@$(NEED_RT)
	@scripts/gate/try_plants.py $(or $(CRATE),--all)

# Builds both programs, unless make test or an earlier make build has built them of the same sources.
build: crates/scimem/out/scimem crates/sciview/out/sciview

# Each program is built over what earlier checks kept, and runs its example, which ends with the status in its file status. A copy
# is put into out/bin, where it stays while make test sets aside what stands in crates/.
$(PROGRAMS): $(SOURCES)
	@$(NEED_RT)
	@cd crates/$(@F) && { rt run -- $$(cat args) < stdin > /dev/null; [ $$? -eq $$(cat status 2> /dev/null || echo 0) ]; } && touch out/$(@F)
	@install -D crates/$(@F)/out/$(@F) out/bin/$(@F)

# The C library: liblichenknit.a, liblichenknit.so, and what pkg-config and CMake read, in out/library.
library: out/library/liblichenknit.so

crates/sci_c/out/libsci_c.a: $(SOURCES)
	@$(NEED_RT)
	@cd crates/sci_c && rt lib > out.log 2>&1 || { cat out.log; rm -f out.log; exit 1; }; rm -f out.log && touch out/libsci_c.a

out/library/liblichenknit.so: crates/sci_c/out/libsci_c.a include/lichenknit.h $(wildcard library/*.*) scripts/make/library.py
	@PREFIX="$(PREFIX)" scripts/make/library.py && touch out/library/liblichenknit.so

# Puts the C library, its header and its manual page into PREFIX/lib, PREFIX/include and PREFIX/share/man, and what pkg-config and CMake
# read into PREFIX/lib, below DESTDIR if that is set.
install-library: library
	@install -d "$(DESTDIR)$(PREFIX)/lib/pkgconfig" "$(DESTDIR)$(PREFIX)/lib/cmake/lichenknit" "$(DESTDIR)$(PREFIX)/include" "$(DESTDIR)$(PREFIX)/share/man/man3"
	@install -m 644 include/lichenknit.h "$(DESTDIR)$(PREFIX)/include"
	@install -m 644 out/library/liblichenknit.a "$(DESTDIR)$(PREFIX)/lib"
	@install -m 755 out/library/liblichenknit.so.* "$(DESTDIR)$(PREFIX)/lib"
	@ln -sf "$$(basename out/library/liblichenknit.so.*)" "$(DESTDIR)$(PREFIX)/lib/liblichenknit.so"
	@sed 's|^prefix=.*|prefix=$(PREFIX)|' out/library/lichenknit.pc > "$(DESTDIR)$(PREFIX)/lib/pkgconfig/lichenknit.pc"
	@install -m 644 library/lichenknit-config.cmake out/library/lichenknit-config-version.cmake "$(DESTDIR)$(PREFIX)/lib/cmake/lichenknit"
	@scripts/make/library_page.py > "$(DESTDIR)$(PREFIX)/share/man/man3/sci.3"
	@echo ".so man3/sci.3" > "$(DESTDIR)$(PREFIX)/share/man/man3/lichenknit.3"
	@echo "installed liblichenknit, lichenknit.h and sci(3) below $(DESTDIR)$(PREFIX)"

# An archive of the programs and the C library for every x86-64 processor, in out/dist, which needs no kit where it is unpacked.
dist:
	@$(NEED_RT)
	@scripts/make/dist.py

# The same, and once more in a copy of the checkout in another folder: the two archives have to have the same bytes. It isn't part of
# the gate.
dist-twice:
	@$(NEED_RT)
	@scripts/make/dist_twice.py

# Builds the C library, and runs the examples of docs/SYSTEMVERILOG.md and docs/SYSTEMC.md with it, if Verilator and SystemC are there.
cosim: library
	@scripts/gate/check_cosim.py

# Builds the C library and sciview, and tries the package of Python, the crates of Rust, and the examples of the pages about them.
bindings: library crates/sciview/out/sciview
	@scripts/gate/check_signatures.py
	@scripts/gate/check_bindings.py

# Runs the programs on the stored cases alone.
cases: build
	@scripts/gate/run_cases.py

# Runs the examples of the README, of docs/ and of examples/.
examples: build
	@scripts/gate/run_examples.py

# Draws charts of the schedules of examples/ and of a made one, and checks whether they show what the schedules do.
charts: build
	@scripts/gate/check_charts.py

# Opens pages of schedules and of logs in a browser, and checks whether they show what the other commands write.
pages: build
	@scripts/gate/check_page.py

# Puts the programs and their manual pages into PREFIX/bin and PREFIX/share/man, below DESTDIR if that is set. With rt on the
# PATH the programs are built first; without it, as under sudo, those that are built are taken.
install:
	@if command -v rt > /dev/null; then $(MAKE) --no-print-directory build; fi
	@for name in scimem sciview; do [ -x out/bin/$$name ] || { echo "$$name isn't built yet: run make build first"; exit 1; }; done
	@install -d "$(DESTDIR)$(PREFIX)/bin" "$(DESTDIR)$(PREFIX)/share/man/man1" "$(DESTDIR)$(PREFIX)/share/man/man5" "$(DESTDIR)$(PREFIX)/share/bash-completion/completions"
	@install -m 755 out/bin/scimem out/bin/sciview "$(DESTDIR)$(PREFIX)/bin"
	@install -m 644 docs/scimem.1 docs/sciview.1 "$(DESTDIR)$(PREFIX)/share/man/man1"
	@for name in scimem sciview; do install -m 644 scripts/make/completion.bash "$(DESTDIR)$(PREFIX)/share/bash-completion/completions/$$name"; done
	@scripts/make/manual_page.py > "$(DESTDIR)$(PREFIX)/share/man/man5/scimem.5"
	@echo "installed scimem and sciview in $(DESTDIR)$(PREFIX)/bin, scimem(1), sciview(1) and scimem(5) in $(DESTDIR)$(PREFIX)/share/man, and completion for bash"
	@if [ -f out/library/liblichenknit.a ]; then $(MAKE) --no-print-directory -o library install-library; fi

# Builds tests and the programs over what earlier checks kept, and has memory, reads and writes refused. With CRATE=NAME
# it tries that crate alone.
faults:
	@$(NEED_RT)
	@scripts/gate/try_faults.py --build $(CRATE)

# Builds both programs, and runs seeded scripts of every shape by threads and in drawn turns for some seconds:
# make soak SECONDS=600 SEED=2. It isn't part of the gate.
soak: build
	@scripts/measure/soak.py $(or $(SECONDS),60) $(or $(SEED),1)

# Builds the C library, and lets nodes take ten million turns in orders that adversaries choose: make adversaries TURNS=10000000
# SEED=2. It isn't part of the gate, which takes fewer.
adversaries: library
	@mkdir -p out/adversaries
	@$(CC) -std=c11 -O2 -Iinclude library/tests/adversaries.c out/library/liblichenknit.a -o out/adversaries/adversaries
	@out/adversaries/adversaries $(or $(TURNS),10000000) $(or $(SEED),1)

# Builds the C library, and prints what its calls take, beside plain C: make calls CALLS=1000000 TRIES=5. It isn't part of the gate.
calls: library
	@mkdir -p out/calls
	@$(CC) -std=c11 -O2 -Iinclude bench/calls.c out/library/liblichenknit.a -o out/calls/calls
	@out/calls/calls $(or $(CALLS),1000000) $(or $(TRIES),5)

# Builds both programs, gives scimem hostile inputs for some seconds, and for as long each small traces to sciview judge and small
# scripts to sciview allowed and outcomes, whose answers are checked by trying all orders; then 1,000 of its own runs without their
# versions to sciview judge: make fuzz SECONDS=600 SEED=2. It isn't part of the gate.
fuzz: build
	@scripts/measure/fuzz.py $(or $(SECONDS),60) $(or $(SEED),1)
	@scripts/measure/fuzz_traces.py $(or $(SECONDS),60) $(or $(SEED),1)
	@scripts/measure/fuzz_outcomes.py $(or $(SECONDS),60) $(or $(SEED),1)
	@scripts/measure/judge_runs.py 1000 $(or $(SEED),1)

# Builds both programs, and prints how the cost of each command grows with its input. It isn't part of the gate.
growth: build
	@scripts/measure/growth.py $(or $(RUNS),5)

# Builds the programs, and the plain program of bench/ by cargo; checks that they write the same bytes, and prints what each
# takes: make bench RUNS=9 SUBJECTS="oracle replay". It isn't part of the gate.
bench: build crates/sci_station_timer/out/sci_station_timer
	@$(NEED_CARGO)
	@cd bench && cargo build --release --offline --quiet
	@scripts/measure/bench.py $(or $(RUNS),9) $(SUBJECTS)

# Builds the same programs, and prints how many instructions each takes for an operation, as valgrind counts them. It isn't part
# of the gate.
instructions: build crates/sci_station_timer/out/sci_station_timer
	@$(NEED_CARGO)
	@cd bench && cargo build --release --offline --quiet
	@scripts/measure/instructions.py

# Each crate that changed since it was last proved here, or that stands on one that did.
check:
	@$(NEED_RT)
	@scripts/gate/check.py

# Lays out every crate's files.
fmt:
	@$(NEED_RT)
	@for crate in crates/*/; do (cd "$$crate" && rt fmt) || exit 1; done

# Removes what checks and builds made.
clean:
	@$(NEED_RT)
	@rm -rf out crates/*/out bench/target bindings/rust/target
