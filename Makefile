# Each target is one command, which make prints before it runs it. compare and measure link the archive of `lib`; compare
# also needs the bench program of `check`. DO says what one of the tools is to do, as in
#     make compare DO='books --seed 2 --trials 300000'
#     make measure DO='errors docs/error.svg'
#     make trace DO='print days.trace'
TOOL = cargo run --offline --release --quiet --manifest-path tools/Cargo.toml
CC_EXAMPLE = gcc -Wall -Wextra -Werror -std=c11 -Iinclude
ARCHIVE = crates/capi/out/libcapi.a
BENCH = crates/bench/out/bench

.PHONY: help check gate lib examples compare measure trace

help: # the targets
	@grep -E '^[a-z]+:' Makefile

check: # prove the bench program, write crates/bench/out/bench, and run it on no input
	cd crates/bench && rt run </dev/null

gate: # all that has to pass
	bash .ci/run

lib: # prove the library and write crates/capi/out/libcapi.a
	cd crates/capi && rt lib

examples: # build and run the examples in C
	mkdir -p target && for name in site week two; do $(CC_EXAMPLE) -o target/$$name examples/$$name.c $(ARCHIVE) && target/$$name || exit; done

compare: # the usual comparisons with the second program, or the one that DO names
	for do in $(if $(DO),"$(DO)","bench $(BENCH)" books replays merges); do $(TOOL) -p compare -- $$do || exit; done

measure: # the tables of docs/PERFORMANCE.md, or what DO names
	$(TOOL) -p measure -- $(or $(DO),benchmark)

trace: # the command for traces, with the words of DO
	$(TOOL) -p trace -- $(or $(DO),--help)
