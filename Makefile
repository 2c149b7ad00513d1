# draw:    one litre over a network that holds a response back, action by action
# bench:   a script of calls on a link; SCRIPT names its file, and without it the examples are run
# readout: one reading signed, sent and checked, octet by octet
# relay:   one request and one response over each carrier
# rounds:  how fast a whole link is
# test:    the gate: every proof, every edit that must be refused, every program and test
# speed:   the signature beside the same in C

SCRIPT ?= $(wildcard crates/linkbench/data/*.script)

.PHONY: draw bench readout relay rounds test speed

# a program is proved before it is run, and what has not changed is not proved again; of what rt says only the program's own
# lines on standard error are shown, or all where it fails
draw readout relay rounds:
	@mkdir -p target
	@cd crates/$@ && rt run 2> ../../target/$@.log || { cat ../../target/$@.log >&2; exit 1; }
	@sed '1,/^rt: running/d' target/$@.log >&2

bench:
	@mkdir -p target
	@cd crates/linkbench && rt run < /dev/null > ../../target/linkbench.log 2>&1 || { cat ../../target/linkbench.log >&2; exit 1; }
	@crates/linkbench/out/linkbench $(SCRIPT)

test:
	@tools/gate.sh

speed:
	@mkdir -p target/staticlib
	@cd crates/signature_c && rt lib > ../../target/signature.log 2>&1 || { cat ../../target/signature.log >&2; exit 1; }
	@cp crates/signature_c/out/libsignature_c.a target/staticlib/libsignature.a
	@cc -O3 -o target/signature-speed bench/signature.c target/staticlib/libsignature.a
	@target/signature-speed
