# Nadhirukh: a proved engine for Constraint Handling Rules over whole numbers.
.PHONY: demo test soak lib memory bench swi fmt

# Prove and build what there is, and run the main job on an example.
demo:
	@scripts/demo

# The gate: every proof, must-fail edit, program and host test; the last line is 'N passed, M failed'.
test:
	@scripts/gate

# Many more random cases through the C interface than the gate runs, of tables and of texts: make soak CASES=1000000 TEXTS=1000000 SEED=3
# for others.
CASES ?= 20000000
TEXTS ?= 5000000
SEED ?= 2
soak:
	@bash host/tests/compare.sh $(CASES) $(SEED)
	@bash host/tests/compare_text.sh $(TEXTS) $(SEED)

# The static library for C on x86-64, and how to link it and run what it is linked into.
lib:
	@bash -c '. scripts/testing.sh && proving write_library' lib
	@echo 'to link: scripts/x86 cc -Iinclude PROGRAM.c crates/nadhirukh/out/libnadhirukh.a -o PROGRAM'
	@echo 'to run:  scripts/x86 ./PROGRAM'
	@[ "$$(uname -m)" != x86_64 ] || echo 'this machine is x86-64, so cc and ./PROGRAM alone do as well'

# The machine stack of the calls, over the stored cases, and the size of their code.
memory:
	@scripts/memory

# The time of the calls against the plain engine of host/, as ratios in one process: make bench OLD=ARCHIVE against an older library too.
OLD ?=
bench:
	@scripts/bench "$(OLD)"

# Every example on SWI-Prolog's CHR library and on the proved engine; the last line is 'N passed, M failed'.
swi:
	@scripts/swi

# Lay out every source and proof file.
fmt:
	@for crate in crates/*/; do (cd "$$crate" && rt fmt) || exit; done
