# make demo   proves and builds everything, then replays the evening of the faulty sensor
# make test   the gate: layout, every proof from nothing and every must-fail edit (`rt ci`), then the tests from outside
# make fuzz   compares the product with the second reader for SECONDS seconds
# make bench  time and instructions of the archive against the second reader and plain C
#
# What is built stands in target/, as copies of what rt builds in crates/NAME/out: the programs run, replay, show and line in target/bin,
# the archive libcinder.a in target/staticlib. From there the tests and examples take it. `make built` brings it up to date.

.PHONY: demo test outside built fuzz bench

# A pipe fails where one of its commands does.
SHELL := bash
.SHELLFLAGS := -o pipefail -c

demo:
	rt all check
	@$(MAKE) --no-print-directory built
	examples/demo.sh

# `rt ci` refuses files that are not laid out, and passes with must-fail edits that cannot be applied, which its line `rt: ok` counts as bad:
# the gate does not. The last line of `rt ci`, the tally, is held back until the tests from outside have passed.
test:
	@mkdir -p target
	@touch target/began
	rt ci | awk -f tests/tally.awk -v tally=target/tally
	@$(MAKE) --no-print-directory outside BEGAN=target/began
	@cat target/tally

# The programs and the archive, each proved before it is built; with BEGAN, from what `rt ci` has just left.
built:
	tests/build.sh $(BEGAN)

outside: built
	tests/run_cases.sh
	tests/replay_cases.sh
	tests/show_cases.sh
	tests/line_cases.sh
	tests/no_arrays.sh
	$(MAKE) --no-print-directory -C tests all

fuzz: built
	$(MAKE) --no-print-directory -C tests fuzz

bench: built
	$(MAKE) --no-print-directory -C tests bench
	$(MAKE) --no-print-directory -C tests placement
