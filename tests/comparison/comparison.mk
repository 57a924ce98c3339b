# The comparison with the independent program. From the top Makefile: include tests/comparison/comparison.mk
#   make soak  compares millions of calls from several seeds, the last one from the clock, and shows that each check sees what is wrong

COMPARISON_SOAK_CALLS ?= 4000000
COMPARISON_SOAK_SEEDS ?= 1 2 3 $(shell date +%s)

.PHONY: soak
soak:
	for seed in $(COMPARISON_SOAK_SEEDS); do \
		tests/comparison/run --calls $(COMPARISON_SOAK_CALLS) --seed $$seed || exit 1; \
	done
	tests/comparison/prove_checks
