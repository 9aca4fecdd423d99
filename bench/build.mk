# make bench: the reel book beside its floors and other stores; tables on the output and in build/bench.tsv.
# make bench QUICK=1: the book, C by hand and the floor alone. FRAMES is how many are loaded, MEMORY and DISK are folders for the files,
# LIBRARY is another build of the library, RUN is a program to run it in, such as a profiler. BEFORE is an earlier build of the
# library, for a column of its own, and BEFORE_INCLUDE the folder of its header, where that is another than the present one.
# EDITION=1 measures on images of edition 1, TABLE=1 on images with their own table.
# A store whose package is missing is left out: apt-get install libpmemobj-dev liblmdb-dev libsqlite3-dev.
# make bench-operations: each operation by itself, in the cache, without and with an own table; LIBRARY, RUN, BEFORE and
# BEFORE_INCLUDE as above.
# make bench-convert: Convert beside a plain copy and beside Recover; LIBRARY and RUN as above.
# make bench-tidy: Tidy beside List, in large reels and small ones; LIBRARY and RUN as above.
# make bench-docs: the tables and the plot of the last whole run go to docs/.
.PHONY: bench bench-operations bench-convert bench-tidy bench-docs

MEMORY ?= /dev/shm
DISK ?= build
FRAMES ?= 1000000
BEFORE_INCLUDE ?= include
BENCH_SOURCES = bench/bench.c bench/book.c bench/hand.c bench/floor.c bench/work.c bench/report.c driver/medium.c driver/carry.c

# Another store, by its name, header, source and library, where its header is found.
other_store = $(if $(shell $(CC) -include $(2) -fsyntax-only -x c /dev/null 2>/dev/null && echo found), \
    -DHAVE_$(1) bench/$(3).c -l$(4), $(info bench: no $(2), so $(1) is left out: apt-get install lib$(4)-dev))
OTHER_STORES = $(call other_store,PMEMOBJ,libpmemobj.h,pmemobj,pmemobj) $(call other_store,LMDB,lmdb.h,lmdb,lmdb) \
    $(call other_store,SQLITE,sqlite3.h,sqlite,sqlite3)

# Images of another edition than the one that the library formats, or with their own table.
IMAGES = $(EDITION:%=-DEDITION=%) -DOWN_TABLE=$(if $(TABLE),1,0)

# The earlier build and the store that calls it: one object that hands out one name.
make_before = $(CC) $(WARNINGS) $(CFLAGS) $(IMAGES) -I$(BEFORE_INCLUDE) -Idriver -r -nostdlib -o build/before.o bench/book.c \
    $(BEFORE) && objcopy --keep-global-symbol=book_store build/before.o && \
    objcopy --redefine-sym book_store=before_store build/before.o

# PMEM_IS_PMEM_FORCE: libpmemobj flushes lines, as the book does, where it would call msync.
bench: $(LIBRARY)
	@mkdir -p build
	@$(if $(BEFORE),$(make_before))
	@$(CC) $(WARNINGS) $(CFLAGS) $(IMAGES) -Iinclude -Idriver -o build/benchmark $(BENCH_SOURCES) $(LIBRARY) \
	    $(if $(BEFORE),-DHAVE_BEFORE build/before.o) $(OTHER_STORES)
	@memory=$$(mktemp -d $(MEMORY)/reelbook.XXXXXX) && disk=$$(mktemp -d $(DISK)/reelbook.XXXXXX) && \
	    trap 'rm -rf "$$memory" "$$disk"' EXIT INT TERM && \
	    PMEM_IS_PMEM_FORCE=1 $(RUN) build/benchmark "$$memory" "$$disk" build/bench$(QUICK:%=-quick).tsv $(FRAMES) $(QUICK:%=quick)

# The batches of a build, by its name, library and header's folder, four times: objects that hand out one name each.
PLACES = 16 32 48 64
make_batches = for at in $(PLACES); do object=build/$(1)-$$at.o && \
    $(CC) $(WARNINGS) $(CFLAGS) -DAT=$$at -I$(3) -r -nostdlib -o $$object bench/batches.c $(2) && \
    objcopy --keep-global-symbol=build $$object && objcopy --redefine-sym build=$(1)_$$at $$object || exit 1; done

# -z now: the dynamic linker would else look memset up where instructions are counted.
bench-operations: $(LIBRARY)
	@mkdir -p build
	@$(call make_batches,now,$(LIBRARY),include)
	@$(if $(BEFORE),$(call make_batches,before,$(BEFORE),$(BEFORE_INCLUDE)))
	@$(CC) $(WARNINGS) $(CFLAGS) -Iinclude -Itests -Wl,-z,now -o build/operations bench/operations.c driver/medium.c $(PLACES:%=build/now-%.o) \
	    $(if $(BEFORE),-DHAVE_BEFORE $(PLACES:%=build/before-%.o)) $(LIBRARY)
	@$(RUN) build/operations

# Works on whole images, and what they are made of.
WHOLE_IMAGES = bench/images.c bench/rounds.c tests/book.c

bench-convert: $(LIBRARY)
	@mkdir -p build
	@$(CC) $(WARNINGS) $(CFLAGS) -Iinclude -Itests -o build/convert bench/convert.c tests/converted.c $(WHOLE_IMAGES) $(LIBRARY)
	@$(RUN) build/convert

bench-tidy: $(LIBRARY)
	@mkdir -p build
	@$(CC) $(WARNINGS) $(CFLAGS) -Iinclude -Itests -o build/tidy bench/tidy.c $(WHOLE_IMAGES) $(LIBRARY)
	@$(RUN) build/tidy

bench-docs:
	python3 bench/publish.py build/bench.tsv docs/BENCHMARKS.md docs/benchmarks.svg
