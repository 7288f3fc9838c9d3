# Measures a program of the folder above beside the same in plain Rust, in one run. Nothing of this is in the gate.
# MEASURED says which lines of the program have a plain counterpart, PART which of its works they are among (none: all).

.PHONY: bench checksums

out/plain: $(wildcard *.rs ../../bench_bytes/rust/*.rs)
	@mkdir -p out
	@rustc --edition 2024 -C opt-level=3 -C target-cpu=x86-64-v2 -o out/plain main.rs

# Times, and ratios to plain Rust. The first time it proves and builds the program.
bench: out/plain
	@cd .. && rt run > out/bench.log 2>&1 || { cat out/bench.log; exit 1; }
	@out/plain --time > out/plain.times
	@cd .. && rt run -- $(PART) --time --plain $(CURDIR)/out/plain.times

# Both find the same.
checksums: out/plain
	@out/plain > out/checksums
	@grep '$(MEASURED)' ../stdout | diff - out/checksums
