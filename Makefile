# The commands of the project: `make run < FILE`, `make repair < FILE`, `make test`, `make soak`, `make bench`.
.PHONY: run repair test soak bench

# How long `make soak` goes on, in seconds; 0 is for ever.
SECONDS ?= 600

sources := crates.txt $(shell find crates -name out -prune -o \( -name '*.rt' -o -name '*.antt' \) -print)

# Standard output has the result alone.
run: target/bin/simplify
	@target/bin/simplify

repair: target/bin/repair
	@target/bin/repair

target/bin/simplify target/bin/repair: target/bin/%: $(sources)
	@echo 'make: proving and building $*' >&2
	@tools/build $*
	@touch $@

# Every crate proved, every must-fail edit refused, every program run, then the tests.
test:
	@bash tests/run

# The archive for C and Rust.
target/staticlib/libcapi.a: $(sources)
	@echo 'make: proving and building the library' >&2
	@tools/build capi
	@touch $@

cargo := CARGO_TARGET_DIR=target/cargo CARGO_NET_OFFLINE=true cargo run -q --release --manifest-path

# The library and the second program, on fresh inputs for as long as it is given.
soak: target/staticlib/libcapi.a
	@$(cargo) tests/harness/Cargo.toml -- soak $(SECONDS)

# How long the library takes for what the second program does, as ratios.
bench: target/staticlib/libcapi.a
	@$(cargo) tests/bench/Cargo.toml
