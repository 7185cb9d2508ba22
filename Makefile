# make curve: the example's curve, from a fresh clone. make test: everything that a change has to pass; its last line is the proof's tally,
# 'N passed, M failed'.
SHELL := /bin/bash -o pipefail
# The parts build on one another, and `rt` uses all cores by itself.
.NOTPARALLEL:
# What a failed rule has left is not taken for its result.
.DELETE_ON_ERROR:
.PHONY: curve man test format prove kit setup engine command compare host compare-long cluster-test bench by-turns validate
# Another library than this tree's is for `by-turns` alone: no test is to be run on it unawares.
unexport CICHOWIEJ_LIBRARY

# What a curve needs is built first, each part with about how long it takes on two cores.
EXAMPLE := office-80
curve:
	@$(MAKE) --no-print-directory setup
	@$(MAKE) --no-print-directory --question engine 2>/dev/null && echo "1 of 3: the engine is proved already" \
	  || echo "1 of 3: the engine is proved and compiled, which takes longest the first time"
	@$(MAKE) --no-print-directory engine
	@echo "2 of 3: the command is built, about a minute the first time"
	@$(MAKE) --no-print-directory command
	@echo "3 of 3: the curve of examples/$(EXAMPLE).toml, a few seconds"
	@mkdir -p target/curve
	@target/host/release/cichowiej curve examples/$(EXAMPLE).toml --csv target/curve/$(EXAMPLE).csv --svg target/curve/$(EXAMPLE).svg \
	  --html target/curve/$(EXAMPLE).html
	@echo "written: target/curve/$(EXAMPLE).csv, .svg and .html"

# The crates that host/ is built from: Debian's packages, unless cargo has a registry of its own.
setup:
	@host/setup

# What proofs and programs are made from; a folder stands for what is gone from it. Each crate's out/ holds what was made.
SOURCES := $(shell find crates -mindepth 2 -name out -prune -o -print) crates.txt RATTLE-KIT

# The proved library, made anew when a file of the crates has changed or is gone: the crate api_c, whose exports are the C functions, is proved for it with all
# that it stands on, as far as earlier checks have not done so. What the prover says goes into a file; it is shown where something is not proved.
ENGINE := target/staticlib/libapi.a
engine: $(ENGINE)
$(ENGINE): $(SOURCES)
	@mkdir -p $(@D) && if ! (cd crates/api_c && rt lib) > target/engine.txt 2>&1; then tail -n 40 target/engine.txt; exit 1; fi
	@cp crates/api_c/out/libapi_c.a $@

# The program that lists a save, likewise.
LISTING := target/bin/listing
$(LISTING): $(SOURCES)
	@mkdir -p $(@D) && if ! (cd crates/listing && rt run < /dev/null) > target/listing.txt 2>&1; then tail -n 40 target/listing.txt; exit 1; fi
	@cp crates/listing/out/listing $@

command: engine
	@host/cargo build --release --quiet -p cichowiej-command

# The manual page, from the same words as --help.
man: setup engine command
	@mkdir -p target/man && target/host/release/cichowiej man > target/man/cichowiej.1 && echo "written: target/man/cichowiej.1"

# The proof comes first; it leaves the program that lists a save to the comparison. A must-fail edit that `rt ci` calls bad shows nothing, and fails here.
# After it come a line that says whether there was an original to compare with, and one where the proof kit is another than the one in RATTLE-KIT.
test:
	@said=$$(mktemp); rt ci 2>&1 | tee $$said; proved=$$?; \
	if [ $$proved = 0 ] && ! grep -q '^rt: ok' $$said; then echo "rt ci passed, and has no line 'rt: ok'"; proved=1; fi; \
	if grep -qE '^rt: ok.*, [1-9][0-9]* bad' $$said; then echo "bad must-fail edits: see above"; proved=1; fi; \
	if [ $$proved = 0 ] && ! { mkdir -p target/bin && cp crates/listing/out/listing $(LISTING) && $(MAKE) --no-print-directory setup compare host; }; \
	then $(MAKE) --no-print-directory kit; exit 1; fi; \
	$(MAKE) --no-print-directory kit; tail -n 1 $$said; rm -f $$said; exit $$proved

# Another kit may prove it as well: it is named, and nothing fails.
kit:
	@rt version | cmp -s - RATTLE-KIT || echo "this is another proof kit than the one in RATTLE-KIT: $$(rt version)"

# Lays out the crates' files. `rt ci` refuses one that is not laid out.
format:
	@for crate in crates/*/; do (cd $$crate && rt fmt) || exit 1; done

# Every crate proved, every must-fail edit tried, every program run. What an earlier run on this machine passed of the same files is not done again.
prove:
	rt ci

# The proved library, linked into Rust and C, against the header, the processor's square root, the original Rust and a second reading of the save; and the
# program that lists a save.
compare: engine $(LISTING)
	cd oracle && cargo test --release

# The library and the command for people, on the proved library; and the layer's tables and the validation's slabs against the original.
host: engine
	host/cargo test --release --workspace

# The random studies, damaged saves, histories and pairs alone, many more of them.
compare-long: engine
	cd oracle && CICHOWIEJ_STUDIES=200000 CICHOWIEJ_DAMAGED=1000000 CICHOWIEJ_HISTORIES=20000 CICHOWIEJ_PAIRS=100000 cargo test --release --test calls --test damaged --test histories --test reach

# A curve's plan on a real Slurm, where one answers.
cluster-test: setup engine command
	@host/cluster-test

# Time for a step beside the original's, and for the largest save beside a plain copy; a curve's stepping beside a run's.
bench: setup engine
	cd oracle && cargo run --release -p bench
	host/cargo bench --quiet -p cichowiej-command --bench stepping

# The largest save by the library of another checkout and by this one's, by turns, by one bench: make by-turns BEFORE=FOLDER. There `make engine`
# has been run, and the C functions are this tree's.
TURNS := 5
by-turns:
	@test -f "$(BEFORE)/target/staticlib/libapi.a" || { echo "make by-turns BEFORE=FOLDER, a checkout in which 'make engine' has been run"; exit 2; }
	@cmp -s "$(BEFORE)/include/cichowiej.rs" include/cichowiej.rs \
	  || { echo "$(BEFORE) has other C functions than this tree (include/cichowiej.rs): run 'make bench' in each"; exit 2; }
	@$(MAKE) --no-print-directory engine
	cd oracle && CICHOWIEJ_LIBRARY="$(abspath $(BEFORE))/target/staticlib" cargo build --quiet --release -p bench --target-dir ../target/before
	cd oracle && cargo build --quiet --release -p bench --target-dir ../target/after
	@for turn in $$(seq $(TURNS)); do \
	  if [ $$((turn % 2)) = 1 ]; then order="before after"; else order="after before"; fi; \
	  for which in $$order; do echo "turn $$turn, $$which:"; target/$$which/release/bench saves || exit 1; done; done

# Is it physics? Slabs against the transfer matrix, the layer, a cavity, the mills' accident. It fails where a bound of docs/VALIDATION.md
# is not met, or a table there is not the one computed.
validate: setup engine
	host/cargo run --release -p validate -- --check ../docs/VALIDATION.md
