# make, make help: what there is. Each build.mk says more of its own targets.
.PHONY: help run lib test clean
.DEFAULT_GOAL = help

CC ?= cc
CXX ?= c++
CFLAGS ?= -O2
WARNINGS = -std=c99 -Wall -Wextra -Wpedantic -Wshadow -Wconversion -Werror
LIBRARY = build/libreelbook.a
BOOKRUN = crates/bookrun/out/bookrun
# every crate but the programs, so that none is forgotten; `rt` itself proves only what the library uses and what has changed
PROGRAMS = $(patsubst %/src/main.rt,%,$(wildcard crates/*/src/main.rt))
RATTLE_PARTS = $(wildcard $(foreach crate,$(filter-out $(PROGRAMS),$(wildcard crates/*)),$(addprefix $(crate)/,src specs proofs)))
RATTLE_SOURCES = crates.txt $(shell find $(RATTLE_PARTS) -name '*.rt' -o -name '*.antt')

define HELP
Programs and the library; rt, of the Rattle kit, is needed for all:
  make run            prove, build and run bookrun, the bench program, on standard input or on the paper's Case A
  make lib            prove the library: build/libreelbook.a
  make shared         the library as a shared object
  make tool           the command-line tool: build/reelbook
  make man            the man pages: build/man/
  make install        header, libraries, reelbook.pc, tool and man pages below PREFIX=/usr/local; DESTDIR= for packages
  make uninstall      take the same files out again
  make bench          times beside other stores; QUICK=1 the book alone; BEFORE= an earlier build; EDITION=1 on such images
  make bench-operations  each operation by itself, in the cache, without and with an own table; BEFORE= too
  make bench-convert  Convert beside a plain copy and beside Recover
  make bench-tidy     Tidy beside List, in large reels and small ones
  make bench-docs     the tables and the plot of the last whole run go to docs/
  make clean          remove build/; what is proved, in crates/*/out/, stays

Tests:
  make test           the whole gate: rt ci, then all of these
  make check-header   the header in C and C++, its constants against the library
  make check-archive  no writable data in the library; its stack use; two books in two threads
  make check-stores   Recover's and Convert's stores, one by one
  make check-branches  no branch on a bit of a frame where paths are walked, instruction by instruction
  make check-bookrun  bookrun on Case A, on input in pieces, and where a write or a read fails
  make check-tool     the tool's commands, errors and power failures
  make check-install  an installation, and examples/ compiled against it
  make fuzz           the library against a model; CASES=, SEED=
  make faults         deliberate faults, each of which must be found
endef

help:
	@:$(info $(HELP))

# rt itself sees whether there is anything to prove or build. It then runs the program, here on no input.
prove_bookrun = mkdir -p build && (cd crates/bookrun && rt run) >build/bookrun.log 2>&1 </dev/null || { cat build/bookrun.log; exit 1; }

# On the paper's Case A where nothing is given: at a terminal, from /dev/null, or with standard input closed.
run:
	@$(prove_bookrun)
	@if [ -t 0 ] || [ ! -e /dev/stdin ] || [ /dev/stdin -ef /dev/null ]; then \
	    $(BOOKRUN) <crates/bookrun/stdin; \
	else \
	    $(BOOKRUN); \
	fi

lib: $(LIBRARY)

$(LIBRARY): $(RATTLE_SOURCES)
	@mkdir -p build
	@(cd crates/reelbook_c && rt lib) >build/library.log 2>&1 </dev/null || { cat build/library.log; exit 1; }
	cp crates/reelbook_c/out/libreelbook_c.a $@

clean:
	rm -rf build

include driver/build.mk tests/build.mk install/build.mk
-include bench/build.mk

# The kit's gate first, as it is; a must-fail edit that shows nothing, which passes there, fails here. It leaves bookrun where `rt run`
# would: check-bookrun tries that one, proved just now. A library for C it proves and does not build, which `rt lib` then does. The last
# line is that of `rt ci` once more.
test:
	python3 tests/unused.py
	@mkdir -p build
	@{ rt ci && echo 0 >build/ci.status || echo 1 >build/ci.status; } 2>&1 | tee build/ci.log; read status <build/ci.status; exit $$status
	@if grep '^rt: ok.*, [0-9]* bad' build/ci.log; then echo 'make test: no must-fail edit may be bad' >&2; exit 1; fi
	$(MAKE) --no-print-directory prove_bookrun=: \
	    check-header check-archive check-stores check-branches check-bookrun check-tool check-install faults fuzz
	@tail -n 1 build/ci.log
