# Two commands: `make demo` builds and runs, `make test` checks everything.

.PHONY: demo test speed lib replay compare soak bench model clean

# Eleven stations reading tags. DEMO='--help' lists the options.
demo: lib
	@cd rust && cargo build --release --offline --quiet -p station
	@rust/target/release/station --csv dist/tags.csv --vcd dist/station.vcd $(DEMO)

# The gate: every proof, every must-fail edit, every test. Its last line is 'N passed, M failed'.
test:
	@sh tests/gate.sh

# SMOD and TH1 for a crystal in Hz, a rate in bits a second and a tolerance in hundredths of a percent. It succeeds also where
# there is none.
SPEED = 11059200 9600 50
speed: lib
	@cd rust && cargo build --release --offline --quiet -p station
	@rust/target/release/station --speed $(SPEED) || [ $$? = 1 ]

# The C library: dist/libc51.a, of the exports of these crates, the static libraries of crates.txt, and dist/c51.h. Each archive is compiled
# by itself, and a large function is made part of its caller only where the archive has one call of it: so each call of a device or a board
# has an archive.
ARCHIVES = c51_read c51_write c51_save c51_load c51_offer c51_take c51_return c51_cycle c51_jump c51_trace c51_look \
	c51_wake c51_board_cycle c51_board_jump c51_lent c53_lent
lib:
	@mkdir -p dist
	@echo 'proving and building the library, some minutes the first time; log in dist/build.log'
	@for crate in $(ARCHIVES); do (cd crates/$$crate && rt lib) || exit 1; done >dist/build.log 2>&1 || { cat dist/build.log; exit 1; }
	@rm -f dist/libc51.a
	@{ echo 'CREATE dist/libc51.a'; printf 'ADDLIB %s\n' $(foreach crate,$(ARCHIVES),crates/$(crate)/out/lib$(crate).a); echo SAVE; echo END; } | ar -M
	@cp include/c51.h dist/c51.h

# dist/replay, which answers a call script (docs/SCRIPTS.md) on standard input.
replay: lib
	@cd rust && cargo build --release --offline --quiet -p replay
	@cp -f rust/target/release/replay dist/replay

# dist/replay against the model on fresh random scripts; SEED=N takes a seed again.
ifndef SEED
SEED := $(shell date +%s)
endif
compare: replay
	@echo "seed $(SEED)"
	@sh tests/compare.sh 8 4000 $(SEED)

# Random lists, raw records and speeds through the library and the model. SOAK='--cycles N --records N --speeds N --seed S'.
soak: lib
	@cd rust && cargo build --release --offline --quiet -p compare
	@rust/target/release/soak $(SOAK)

# Times as ratios in one run. BENCH=--quick is a twentieth of it.
bench: lib
	@cd rust && cargo build --release --offline --quiet -p bench
	@rust/target/release/bench $(BENCH)

# The C51 model by other hands.
model:
	@cd model && cargo build --release --offline --quiet

clean:
	rm -rf crates/*/out dist model/target rust/target
