# Bizsorke: a D-Bus message bus whose every function is proved. Each target is for a person; CONTRIBUTING.md says more.

SAMPLE = examples/hello-get-name-owner.stream
PREFIX = /usr/local

.PHONY: help run serve prove install dist test check try named bench load memory edits sizes

help: ## lists the targets
	@awk -F ':.*## ' '/^[a-z]+:.*## / { printf "make %-8s %s\n", $$1, $$2 }' Makefile
	@echo "Options: CRATE=NAME, PREFIX=FOLDER, DESTDIR=FOLDER, ARGS=\"--routers 4\" for serve. CONTRIBUTING.md says more."

# The main job: the sample stream through `busd run`.
run: ## shows the replies to a sample stream, as bytes and text
	@tools/run.sh $(SAMPLE)

# A socket of its own, with a fresh cookie; it tells what clients need. ARGS="--routers 4" hands options on to
# tools/busd-run-session.
serve: ## serves a bus until Ctrl-C, and tells how clients find it; ARGS has its options
	@tools/serve.sh $(ARGS)

# Proves and builds crates/busd/out/busd with all that it stands on; with CRATE=trace_check the program that is
# installed as bus-check.
prove: ## proves and builds busd and all below it; with CRATE=trace_check bus-check
	@tools/prove.sh $(CRATE)

# DESTDIR is put before PREFIX.
install: ## puts what `make prove` has built under PREFIX, with its pages and completions
	@tools/install.sh "$(DESTDIR)$(PREFIX)"

# bus-check must be built, too. It tells which libraries of the system busd needs.
dist: ## the same as an archive, for machines without the toolchain
	@tools/dist.sh

# Every proof, the edits that must fail, the tests, the programs as two compilers build them, each allocation of four of
# them refused in turn, and the daemon started as its users do. Needs cc, glibc and python3 for the last two.
test: ## the gate: all proofs, tests and edits, and what the built programs do
	@tools/gate.sh

# As in `make check CRATE=names`, over what earlier checks kept.
check: named ## proves one crate, CRATE
	@cd crates/$(CRATE) && rt check

# As in `make try CRATE=test_bytes`.
try: named ## runs the tests of one crate, CRATE, without any proof
	@tools/try.sh $(CRATE)

named:
	@[ -n "$(CRATE)" ] && [ -d "crates/$(CRATE)/src" ] || { echo "name a crate, as in CRATE=names" >&2; exit 1; }

# Those of four programs, and of the start of `busd serve`, once the gate has built them. Needs cc and glibc.
memory: ## refuses each allocation of the built programs in turn
	@tools/memory/check.sh

# What the calls of the byte layer and of the shared registry take, beside the same in plain Rust, and what a host
# takes from bytes to bytes. What is not built is proved first. No part of the gate; needs rustc.
bench: ## measures calls of the libraries
	@$(MAKE) -s -C crates/bench_bytes/rust bench
	@$(MAKE) -s -C crates/bench_bus/rust bench
	@cd crates/bench_host && rt run -- --time

# Of all crates or of one, as in `make edits CRATE=names`. The prover must refuse each.
edits: ## tries the edits that the gate leaves out
	@tools/edits.sh $(CRATE)

# Messages a second and processor time a message of busd beside dbus-daemon and dbus-broker, where these are installed.
# No part of the gate; needs cc and three minutes.
load: ## measures busd beside dbus-daemon and dbus-broker
	@tools/load/compare.sh

# The sizes of the crates and what stands on each.
sizes: ## writes the table of docs/GATE.md
	@tools/sizes.sh
