# run: prove the entry point and run it.  maps: the same for the tour of maps.  check: daily work.  test: the gate.
# second: the tests of the second implementation, in plain Rust.
.PHONY: run maps check test second

run: PROGRAM = jobs
maps: PROGRAM = map_tour
run maps:
	@mkdir -p target
	@cd crates/$(PROGRAM) && rt run 2> ../../target/$@.log || { cat ../../target/$@.log; exit 1; }

# Proves what changed, lowest crates first, and takes over what stayed; runs the programs.
check:
	@rt all check
	@for program in jobs rule_table map_tour; do (cd crates/$$program && rt run 2> /dev/null | diff stdout -) || exit 1; done

# Proves every crate from nothing, tries every must-fail edit, runs the programs and the tests of `second`. Its last line
# is 'N passed, 0 failed'; anything else makes it fail.
test:
	@tools/gate.sh

second:
	@cd second && cargo test --offline --quiet
