# make tool: build/reelbook. make check-tool: the driver's flushes and fences, one by one; then tries the tool's commands, its errors,
# some hundreds of power failures and each of its barriers. TOOL_SEED=number takes other power failures.
.PHONY: tool check-tool

TOOL = build/reelbook
TOOL_OBJECTS = $(patsubst driver/%.c,build/driver/%.o,$(wildcard driver/*.c))
SHADOW = build/shadow.so
TOOL_SEED ?= 1

tool: $(TOOL)

$(TOOL): $(TOOL_OBJECTS) $(LIBRARY)
	$(CC) $(CFLAGS) -o $@ $(TOOL_OBJECTS) $(LIBRARY)

build/driver/%.o: driver/%.c $(wildcard driver/*.h) include/reelbook.h
	@mkdir -p build/driver
	$(CC) $(CFLAGS) $(WARNINGS) -Iinclude -c -o $@ $<

$(SHADOW): tests/shadow.c
	@mkdir -p build
	$(CC) $(CFLAGS) $(WARNINGS) -shared -fPIC -o $@ $< -ldl

CARRY_SOURCES = tests/carry.c tests/book.c driver/carry.c driver/medium.c

build/carry: $(CARRY_SOURCES) $(wildcard driver/*.h) tests/traps.h tests/book.h include/reelbook.h $(LIBRARY)
	$(CC) $(CFLAGS) $(WARNINGS) -Iinclude -o $@ $(CARRY_SOURCES) $(LIBRARY)

check-tool: $(TOOL) $(SHADOW) build/carry
	build/carry
	sh tests/tool.sh $(TOOL) $(SHADOW) $(TOOL_SEED)
