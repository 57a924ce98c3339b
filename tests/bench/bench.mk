# The benchmark. From the top Makefile: include tests/bench/bench.mk
#   make bench          builds all, counts, writes the tables and the picture
#   make bench-compare  compares the quick interpreter with the independent program, as tests/comparison compares the product

BENCH_DIR := tests/bench
BENCH_TARGET := target/bench
BENCH_ARCHIVE := target/archive/liblandarbeso.a
BENCH_MARKDOWN ?= docs/PERFORMANCE.md
BENCH_SVG ?= docs/performance.svg
BENCH_CALLS ?= 200000
BENCH_SEED ?= 1
# tests/toolchain.sh says how C is compiled for the archive and run; $(call toolchain,NAME) is what it has under that name.
toolchain = $(shell . tests/toolchain.sh && echo "$$$(1)")
BENCH_CC := $(call toolchain,cc)
BENCH_FLAGS := -std=c99 -O2 $(call toolchain,warnings) -Iinclude

BENCH_QUICK := $(patsubst $(BENCH_DIR)/%.c,%,$(wildcard $(BENCH_DIR)/quick*.c))
BENCH_HEADERS := $(wildcard $(BENCH_DIR)/*.h $(BENCH_DIR)/*.inc) tests/records.h include/landarbeso.h $(BENCH_DIR)/bench.mk tests/toolchain.sh

.PHONY: bench bench-compare
bench: $(BENCH_TARGET)/bench $(BENCH_TARGET)/stack
	python3 $(BENCH_DIR)/bench.py $(BENCH_TARGET) $(BENCH_ARCHIVE) --markdown $(BENCH_MARKDOWN) --svg $(BENCH_SVG)

$(BENCH_ARCHIVE):
	$(MAKE) archive

$(BENCH_TARGET)/%.o: $(BENCH_DIR)/%.c $(BENCH_HEADERS)
	@mkdir -p $(BENCH_TARGET)
	$(BENCH_CC) $(BENCH_FLAGS) -c -o $@ $<

$(BENCH_TARGET)/bench: $(patsubst %,$(BENCH_TARGET)/%.o,bench work scenario machine $(BENCH_QUICK)) $(BENCH_ARCHIVE)
	$(BENCH_CC) -static -o $@ $^

$(BENCH_TARGET)/stack: $(patsubst %,$(BENCH_TARGET)/%.o,stack work scenario $(BENCH_QUICK)) $(BENCH_ARCHIVE)
	$(BENCH_CC) -static -o $@ $^

bench-compare:
	tests/comparison/run --quick --calls $(BENCH_CALLS) --seed $(BENCH_SEED)
