# What there is to do here; README.md says more. `rt` is Rattle's command, cargo the host's.
#
#   make run      the proved build on the example that ships: its table, and the store's rows
#   make install  the library and the program below PREFIX (/usr/local), or below DESTDIR/PREFIX
#   make dist     a tar of the library for who links it without proving it, into target/dist;
#                 MACHINE=aarch64 makes that for Arm
#   make test     everything that is tested; .ci/run is the same, and fails where the source is not there to compare with
#   make check    the proofs alone, what changed since they last passed
#   make bench    the times of the library beside the source's; docs/BENCH.md
#   make fmt      the layout of every file
#
# IVS_LIB names a folder of `make install` or `make dist`: `run` and `install` link that library, and nothing is proved.

PREFIX = /usr/local
DESTDIR =
MACHINE = x86_64
ifdef IVS_LIB
override IVS_LIB := $(abspath $(IVS_LIB))
export IVS_LIB
endif
OWN = target/staticlib/libivs.a
ARCHIVE = $(if $(IVS_LIB),$(IVS_LIB)/lib/libivs.a,$(OWN))
CRATES = $(patsubst %/,%,$(dir $(wildcard crates/*/src)))

.PHONY: run install dist whole library program test bench check fmt

run: program
	@./examples/run host/target/release/fenikezo

# Proved once, with a line a crate; seconds where nothing has changed.
library:
	@$(if $(IVS_LIB),,./tools/staticlib)

program: library
	@$(MAKE) -s -C host --no-print-directory crates
	@cd host && cargo build --quiet --release -p cli

install: program
	./tools/install "$(DESTDIR)$(PREFIX)" "$(ARCHIVE)" host/target/release/fenikezo

dist: whole
	./tools/dist target/dist "$(if $(filter x86_64,$(MACHINE)),$(OWN),target/staticlib/$(MACHINE)/libivs.a)"

# The page of `dist` speaks of all crates, so all are proved.
whole:
	rt all check
	@./tools/staticlib ivs_c $(MACHINE)

test:
	./tests/run

bench:
	$(MAKE) -C host --no-print-directory bench

check:
	rt all check

fmt:
	@for crate in $(CRATES); do (cd $$crate && rt fmt) || exit 1; done
	cd host && cargo fmt
