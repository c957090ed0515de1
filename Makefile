# Each target does all of its own set-up. Files are made beside their place and then moved there, so that none is left half-made.
.PHONY: run test library picture bench help

run: target/basin.bin ## proves and builds the program slotlist, and runs it on the example basin
	@cd crates/slotlist && ../../tools/progress rt run </dev/null >/dev/null
	@crates/slotlist/out/slotlist <target/basin.bin

target/basin.bin: examples/basin.hex tools/bytes
	@mkdir -p target
	@tools/bytes examples/basin.hex >$@.part
	@mv $@.part $@

test: ## the gate: proves everything, tries every must-fail edit, runs every program and test
	@.ci/run

library: ## proves and builds the static library for C and Rust: target/staticlib/libjustrave.a
	@tools/progress tools/library

picture: ## draws what slotlist prints of the basin as docs/basin.svg
	@mkdir -p target
	@$(MAKE) -s run >target/basin.txt
	@cd rust && cargo run --offline --quiet --package timeline -- pump 'pH probe' 'chlorine probe' handset 'service log' \
	    <../target/basin.txt >../target/basin.svg
	@mv target/basin.svg docs/basin.svg

bench: ## the product's time, and its instructions, beside a plain Rust model's; on a machine that does nothing else
	@tools/progress tools/library
	@cd rust && cargo bench --offline --quiet --bench side_by_side
	@echo
	@cd rust && cargo bench --offline --quiet --bench instructions

help: ## lists the targets
	@sed -n 's/^\([a-z]*\):.*## /make \1\t/p' Makefile
