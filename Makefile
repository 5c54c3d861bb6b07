# run: run a loop file (FILE=..; one that ends in .locks is of interlocks); kiln: a drying task; test: the whole gate;
# compare: both implementations on generated files (SEED=.. COUNT=..)
.PHONY: run kiln test compare reference program

FILE ?= examples/wet_bulb.loops
SEED ?= 1
COUNT ?= 2000

# the program that a file is for
PROGRAM = $(if $(filter %.locks,$(FILE)),locks,loops)

run:
	@$(MAKE) --no-print-directory program NAME=$(PROGRAM)
	@crates/$(PROGRAM)/out/$(PROGRAM) < $(FILE)

kiln:
	@$(MAKE) --no-print-directory program NAME=kiln
	@crates/kiln/out/kiln

# proves and builds the program NAME, where it is not built from what stands
program:
	@mkdir -p target
	@cd crates/$(NAME) && rt run < /dev/null > ../../target/run.log 2>&1 || { cat ../../target/run.log; exit 1; }

test:
	.ci/run

reference:
	@cd reference && cargo build --release --offline --quiet

compare: reference
	@reference/target/release/compare --seed $(SEED) --count $(COUNT) --loops crates/loops/out/loops --locks crates/locks/out/locks --keep target/compare
