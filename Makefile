# archive: target/archive has the library and its header, for C and C++ on x86-64. runner: target/bin/runner, the program.
# test: every test of tests/, after the proofs (the gate, .ci/run, does both). bench: instructions per call. soak: millions of calls compared.
.PHONY: archive runner test

archive:
	cd crates/landarbeso_c && rt lib
	mkdir -p target/archive
	cp crates/landarbeso_c/out/liblandarbeso_c.a target/archive/liblandarbeso.a
	cp include/landarbeso.h target/archive/

# (rt run proves it, builds it and runs it where no file is)
runner:
	cd crates/runner && rt run >/dev/null
	mkdir -p target/bin
	cp crates/runner/out/runner target/bin/

test:
	for test in tests/*/run; do $$test || exit 1; done

include tests/bench/bench.mk
include tests/comparison/comparison.mk
