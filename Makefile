# make run   a stored trace, printed; and the numbers at the edges, checked against the meaning
# make lib   the unit for C and Rust, proved and built: target/staticlib/libamx.a
# make trace the program, proved and built: target/bin/amx_trace
# make host  both, and the Rust packages: linted, tested with the proved unit and without, and the unit compared with a second program (needs
#            cargo with rustfmt and clippy, no network)
# make test  the gate, .ci/run: every crate proved, every must-fail edit refused, every program run; then make host's checks on what that proved
# make bench the proved unit against a C version, then against the second program; a million steps through amx_trace against the same steps alone
#            (needs a C compiler and cargo; no part of the gate)
.PHONY: run lib trace host checks test bench

run: trace
	target/bin/amx_trace crates/traces/data/product.trace
	@sed -n '/^edges =/,/^ *∷ \[\]/s/^ *-- /proved: /p' crates/isa/specs/Edges.antt

# For any x86-64, which rt by itself does not build for. A file that stays the same keeps its time, by which cargo goes.
lib:
	cd crates/amx_c && rt lib --cpu=x86-64
	@mkdir -p target/staticlib
	@cmp -s crates/amx_c/out/libamx_c.a target/staticlib/libamx.a || cp crates/amx_c/out/libamx_c.a target/staticlib/libamx.a

# rt runs what it builds, for any x86-64 too
trace:
	@mkdir -p target/bin
	(cd crates/amx_trace && rt run --cpu=x86-64 -- ../traces/data/product.trace) > target/trace.log || { cat target/trace.log; exit 1; }
	@cmp -s crates/amx_trace/out/amx_trace target/bin/amx_trace || cp crates/amx_trace/out/amx_trace target/bin/amx_trace

host: lib trace
	$(MAKE) checks

# cargo builds into host/target. COMPARE holds options of the comparison, say --seed 2 (host/target/release/compare --help has them).
# Without the feature `proved` the package is alone: `compare` and `speed` need it.
CARGO = cd host && cargo
FLAGS = --locked --offline --quiet
COMPARE =

checks:
	$(CARGO) fmt --all --check
	$(CARGO) clippy $(FLAGS) --workspace --all-targets -- -D warnings
	$(CARGO) clippy $(FLAGS) --no-default-features --all-targets -- -D warnings
	$(CARGO) test $(FLAGS) --no-default-features
	$(CARGO) test $(FLAGS) --workspace --release
	$(CARGO) run $(FLAGS) --package amx-checks --release --bin compare -- --need-trace $(COMPARE)

test:
	.ci/run

B = target/bench

bench: lib trace
	mkdir -p $B
	$(CC) -O3 -DNAME=unit_baseline -c bench/unit.c -o $B/baseline.o
	$(CC) -O3 -march=native -DNAME=unit_native -c bench/unit.c -o $B/native.o
	$(CC) -O2 bench/main.c $B/baseline.o $B/native.o target/staticlib/libamx.a -o $B/bench
	$(CC) -O2 bench/trace.c target/staticlib/libamx.a -o $B/trace
	$B/bench
	$(CARGO) run $(FLAGS) --package amx-checks --release --bin speed
	$B/trace target/bin/amx_trace $B
