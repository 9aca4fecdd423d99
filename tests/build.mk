# make check-header: include/reelbook.h as C and as C++, refused on other platforms, and its constants against the library; what
# Convert writes and refuses; how far Has goes; what Tidy gives back and refuses; what Translate makes of a script.
# make check-archive: nothing writable in the library; the stack that each function needs; two books in two threads.
# make check-stores: Recover's stores to the image and Convert's to the copy, one by one.
# make check-branches: the instructions of Has, Remove, Claim, Fill and Recover, one by one, which no bit of a frame decides.
# make check-bookrun: the bench program on Case A, on input in pieces, and where a write or a read fails.
# make fuzz: the library against the model in CASES cases of calls and a history for every 50 of them: a minute or two.
# SEED=random takes new cases; SEED=number repeats one.
# make faults: deliberate faults, each of which the fuzzing has to find.
.PHONY: check-header check-archive check-stores check-branches check-bookrun fuzz faults

RUSTC ?= rustc
CASES ?= 500000
SEED ?=
HEADER_WARNINGS = -Wall -Wextra -Wpedantic -Wshadow -Wconversion -Wsign-conversion -Wcast-qual -Wundef -Werror
HEADER_AS_C = $(CC) -x c -std=c99 $(HEADER_WARNINGS) -Wstrict-prototypes -Iinclude $(CFLAGS)
HEADER_AS_CXX = $(CXX) -x c++ -std=c++11 $(HEADER_WARNINGS) -Iinclude $(CFLAGS)

check-header: build/header-c build/header-c++
	echo '#include "reelbook.h"' | $(HEADER_AS_C) -fsyntax-only -
	echo '#include "reelbook.h"' | $(HEADER_AS_CXX) -Wold-style-cast -fsyntax-only -
	for other in -U__x86_64__ -U__ELF__ -mx32; do \
	    echo '#include "reelbook.h"' | LC_ALL=C $(HEADER_AS_C) -ffreestanding $$other -fsyntax-only - 2>&1 | \
	        grep -q 'error.*reelbook: x86-64' || { echo "the header is not refused with $$other" >&2; exit 1; }; \
	done
	build/header-c
	build/header-c++

HEADER_TESTS = $(patsubst %,tests/%.c,header convert converted lookups tidy tidy_refusals tidy_call groups translate lent book)

build/header-c: $(HEADER_TESTS) $(wildcard tests/*.h) include/reelbook.h $(LIBRARY)
	$(HEADER_AS_C) -o $@ $(HEADER_TESTS) -x none $(LIBRARY)

build/header-c++: $(HEADER_TESTS) $(wildcard tests/*.h) include/reelbook.h $(LIBRARY)
	$(HEADER_AS_CXX) -o $@ $(HEADER_TESTS) -x none $(LIBRARY)

check-archive: build/stack build/threads
	CC='$(CC)' sh tests/archive.sh $(LIBRARY)
	sh tests/stack.sh build/stack
	build/threads

# -z now: the dynamic linker would else look memset up on the painted stack.
build/stack: tests/stack.c tests/book.c tests/book.h include/reelbook.h $(LIBRARY)
	$(CC) $(WARNINGS) $(CFLAGS) -Iinclude -Wl,-z,now -o $@ tests/stack.c tests/book.c $(LIBRARY)

build/threads: tests/threads.c include/reelbook.h $(LIBRARY)
	$(CC) $(WARNINGS) $(CFLAGS) -Iinclude -pthread -o $@ tests/threads.c $(LIBRARY)

check-stores: build/stores
	build/stores

STORES_TESTS = $(patsubst %,tests/%.c,stores watch converted lent book)

build/stores: $(STORES_TESTS) $(wildcard tests/*.h) include/reelbook.h $(LIBRARY)
	$(CC) $(WARNINGS) $(CFLAGS) -Iinclude -o $@ $(STORES_TESTS) $(LIBRARY)

check-branches: build/branches
	build/branches

# -z now: the dynamic linker would else look memset up in the first trace of Recover.
build/branches: tests/branches.c tests/traps.h tests/book.c tests/book.h include/reelbook.h $(LIBRARY)
	$(CC) $(WARNINGS) $(CFLAGS) -Iinclude -Wl,-z,now -o $@ tests/branches.c tests/book.c $(LIBRARY)

check-bookrun:
	@$(prove_bookrun)
	sh tests/bookrun.sh $(BOOKRUN)

fuzz: build/fuzz
	build/fuzz $(if $(filter-out random,$(SEED)),case $(SEED),$(CASES) $(SEED))

faults: build/fuzz
	build/fuzz faults

build/fuzz: $(wildcard tests/fuzz/*.rs tests/model/*.rs) $(LIBRARY)
	$(RUSTC) -O -C overflow-checks=on --edition 2021 -C link-arg=$(LIBRARY) -o $@ tests/fuzz/main.rs
