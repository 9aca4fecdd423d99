/* What the reference driver does on a module with line flushes, instruction by instruction: its stores, line flushes and fences
 * are the entries of the module's script, in their sequence, and nothing else. And on the present medium: where a fence comes,
 * the line of each store before it was flushed after that. A call is made one instruction at a time, by the trap flag; after each
 * the memory is compared with a copy, before each its code is looked at. Linux on x86-64. */
#define _GNU_SOURCE
#include <stdio.h>

#if defined __linux__ && defined __x86_64__

#include "../driver/carry.h"
#include "book.h"
#include "traps.h"

#include <ucontext.h>

enum { IMAGE_AT = 64, IMAGE_WORDS = 400, MEMORY_WORDS = 512, SCRIPTS = 40, MOST_ENTRIES = 1024, LINE = 64 };

static uint64_t memory[MEMORY_WORDS] __attribute__((aligned(LINE))), copy[MEMORY_WORDS];
static struct medium m;

/* What was executed, as the entries of a script: indexes and lines count from the image's start. */
static uint64_t trace[2 * MOST_ENTRIES];
static volatile size_t traced;
static volatile sig_atomic_t tracing, unknown;

static void note(uint64_t first, uint64_t second) {
    if (traced + 2 <= 2 * MOST_ENTRIES) {
        trace[traced] = first;
        trace[traced + 1] = second;
    }
    traced = traced + 2;
}

static void note_stores(void) {
    for (size_t word = 0; word < MEMORY_WORDS; word++)
        if (memory[word] != copy[word]) {
            copy[word] = memory[word];
            note(word - IMAGE_AT, memory[word]);
        }
}

/* The register that has the address; other ways to name it are not known here. */
static uint64_t address(const greg_t *registers, unsigned modrm, unsigned high) {
    static const int numbers[] = {REG_RAX, REG_RCX, REG_RDX, REG_RBX, REG_RSP, REG_RBP, REG_RSI, REG_RDI,
                                  REG_R8,  REG_R9,  REG_R10, REG_R11, REG_R12, REG_R13, REG_R14, REG_R15};
    unsigned base = modrm & 7;
    unknown |= modrm >> 6 != 0 || base == 4 || base == 5;
    return (uint64_t)registers[numbers[base + high]];
}

/* 0f ae: sfence is /7 with a register, clflush /7, with 66 before it clflushopt /7 and clwb /6, with an address. */
static void note_code(const greg_t *registers) {
    const unsigned char *code = (const unsigned char *)registers[REG_RIP];
    unsigned prefix = *code == 0x66 ? *code++ : 0, high = (*code & 0xf0) == 0x40 && (*code & 1) ? 8 : 0;
    code += (*code & 0xf0) == 0x40;
    if (code[0] != 0x0f || code[1] != 0xae)
        return;
    unsigned modrm = code[2], operation = modrm >> 3 & 7;
    if (modrm == 0xf8)
        note(REELBOOK_BARRIER, 0);
    else if (modrm >> 6 != 3 && (operation == 7 || (operation == 6 && prefix)))
        note(REELBOOK_FLUSH, (address(registers, modrm, high) - (uint64_t)(uintptr_t)(memory + IMAGE_AT)) / LINE);
}

static void on_step(int number, siginfo_t *info, void *context) {
    greg_t *registers = ((ucontext_t *)context)->uc_mcontext.gregs;
    (void)number, (void)info;
    note_stores();
    if (!tracing) {
        registers[REG_EFL] &= ~(greg_t)TRAP_FLAG;
        return;
    }
    note_code(registers);
    registers[REG_EFL] |= TRAP_FLAG;
}

/* What is done under the trap flag. */
static uint64_t script[REELBOOK_SCRIPT_WORDS], module_script[REELBOOK_MODULE_WORDS];
static const uint64_t *carried;
static size_t words, first, count;

static int carry(void) {
    return carry_out(&m, IMAGE_AT, carried, words);
}

static int barrier_over(void) {
    return medium_barrier_over(&m, first, count);
}

static int settle(void) {
    return medium_settle(&m, first, count);
}

/* The breakpoint makes the first trap. */
static void run(int (*call)(void)) {
    int (*volatile called)(void) = call;
    memcpy(copy, memory, sizeof copy);
    traced = 0;
    tracing = 1;
    __asm__ volatile("int3" ::: "memory");
    int failed = called();
    tracing = 0;
    equal(failed != 0, 0, "a failure");
    equal((uint64_t)unknown, 0, "flushes whose address is not known");
    equal(traced <= 2 * MOST_ENTRIES, 1, "room for what is executed");
}

static void executed(const uint64_t *due, size_t due_words, const char *what) {
    equal(traced, due_words, "how much is executed");
    equal((uint64_t)memcmp(trace, due, due_words * sizeof *due), 0, what);
}

/* Values are drawn, so that every store changes its word; few lines, so that they come again. */
static void draw_script(uint64_t range) {
    words = 2 * (1 + (size_t)drawn() % (REELBOOK_SCRIPT_WORDS / 2));
    for (size_t at = 0; at < words; at += 2) {
        int barrier = at + 2 == words || drawn() % 6 == 0;
        script[at] = barrier ? REELBOOK_BARRIER : drawn() % range;
        script[at + 1] = barrier ? 0 : drawn();
    }
}

static void translate(void) {
    uint64_t used;
    uint64_t answer = reelbook_translate(script, words, module_script, REELBOOK_MODULE_WORDS, IMAGE_WORDS, &used);
    equal(answer, REELBOOK_DONE, "translate");
    carried = module_script;
    words = (size_t)used;
}

/* At each fence every store before it has had a flush of its line since. */
static uint64_t not_lasting(void) {
    uint64_t wrong = 0;
    for (size_t at = 0; at < traced; at += 2) {
        int flushed = 0;
        for (size_t to = at + 2; trace[at] < REELBOOK_FLUSH && !flushed && to < traced; to += 2) {
            flushed = trace[to] == REELBOOK_FLUSH && trace[to + 1] == trace[at] / REELBOOK_LINE_WORDS;
            wrong += trace[to] == REELBOOK_BARRIER;
        }
    }
    return wrong;
}

static size_t count_of(const uint64_t *entries, size_t length, uint64_t kind) {
    size_t found = 0;
    for (size_t at = 0; at < length; at += 2)
        found += entries[at] == kind;
    return found;
}

static void check_scripts(void) {
    for (unsigned round = 0; round < SCRIPTS; round++) {
        draw_script(1 + drawn() % IMAGE_WORDS);
        carried = script;
        m.module = 0;
        run(carry);
        equal(not_lasting(), 0, "stores that a fence does not make lasting");
        equal(count_of(trace, traced, REELBOOK_BARRIER), count_of(script, words, REELBOOK_BARRIER), "fences");
        draw_script(1 + drawn() % IMAGE_WORDS);
        translate();
        m.module = 1;
        run(carry);
        executed(module_script, words, "the module's script");
        for (size_t at = 0; at < words; at += 2)
            if (module_script[at] < REELBOOK_FLUSH)
                module_script[at + 1] = drawn();
        m.module = 0;
        run(carry);
        equal(not_lasting(), 0, "stores of the module's script that the present medium does not make lasting");
    }
}

/* 24 lines, each flushed once. */
static void check_longest(void) {
    for (words = 0; words < REELBOOK_SCRIPT_WORDS; words += 2) {
        script[words] = words / 2 * REELBOOK_LINE_WORDS;
        script[words + 1] = drawn();
    }
    script[words - 2] = REELBOOK_BARRIER;
    script[words - 1] = 0;
    translate();
    m.module = 1;
    run(carry);
    equal(traced, REELBOOK_MODULE_WORDS, "entries of the longest script");
    executed(module_script, words, "the longest script");
}

/* Each line of the words, the last in part too, and then a fence; a store of the driver's own, its line, and a fence. On both
 * media the same. */
static void check_own(void) {
    uint64_t due[2 * MOST_ENTRIES];
    for (unsigned round = 0; round < SCRIPTS; round++) {
        size_t used = 0;
        m.module = round % 2;
        first = IMAGE_AT;
        count = 1 + (size_t)drawn() % IMAGE_WORDS;
        for (uint64_t line = 0; REELBOOK_LINE_WORDS * line < count; line++) {
            due[used++] = REELBOOK_FLUSH;
            due[used++] = line;
        }
        due[used++] = REELBOOK_BARRIER;
        due[used++] = 0;
        run(barrier_over);
        executed(due, used, "a barrier over words");
        first = IMAGE_AT + (size_t)drawn() % IMAGE_WORDS;
        count = (size_t)drawn();
        const uint64_t own[] = {first - IMAGE_AT, count, REELBOOK_FLUSH, (first - IMAGE_AT) / REELBOOK_LINE_WORDS,
                                REELBOOK_BARRIER, 0};
        run(settle);
        executed(own, sizeof own / sizeof *own, "a store of the driver's own");
    }
}

int main(void) {
    m = (struct medium){.words = memory, .length = MEMORY_WORDS, .barrier = BARRIER_FLUSH};
    handle(SIGTRAP, on_step);
    medium_barrier_over(&m, 0, 1); /* finds out how lines are flushed */
    check_scripts();
    check_longest();
    check_own();
    printf("carry: %u checks, %u failures\n", checks, failures);
    return failures != 0;
}

#else

int main(void) {
    puts("skipped: the driver's flushes one by one, because they are watched by a way of Linux on x86-64");
    return 0;
}

#endif
