# test: the gate. run, run-residue: prove what the food or the residue program needs, build it and run it on standard input.
# peer, bench, view: evidence from outside, no part of the gate (peer/README.md). make view LIST=FILE draws the charts of a list.
.PHONY: test run run-residue peer bench view

test:
	@.ci/run

run:
	@cd crates/check_sample && rt run </dev/null >&2
	@crates/check_sample/out/check_sample

run-residue:
	@cd crates/check_residue && rt run </dev/null >&2
	@crates/check_residue/out/check_residue

peer:
	@peer/check

bench:
	@peer/bench

view:
	@peer/view $(LIST)
