#define _GNU_SOURCE
#if defined __linux__ && defined __x86_64__

#include "watch.h"

#include <sys/mman.h>
#include <ucontext.h>
#include <unistd.h>

#include "book.h"
#include "traps.h"

enum { WORD = sizeof(uint64_t) };

static uint64_t *memory;
static size_t words;
static unsigned *stores; /* to each word */
static uint64_t in_part;

/* The store under way: registers and memory before it, the bytes that it reaches, and whether it is made on the complement. */
static gregset_t registers;
static uint64_t *before;
static unsigned char *reached;
static int on_complement;

static void protect(int protection) {
    if (mprotect(memory, words * WORD, protection) != 0) {
        perror("watch: mprotect");
        _exit(2);
    }
}

static void end_at_fault(void) {
    static const char line[] = "watch: a store, or a load, where there may be none\n";
    ssize_t written = write(STDOUT_FILENO, line, sizeof line - 1);
    (void)written;
    _exit(1);
}

/* The store is about to be made: its first byte is known. */
static void on_fault(int number, siginfo_t *info, void *context) {
    ucontext_t *machine = (ucontext_t *)context;
    size_t at = (size_t)((char *)info->si_addr - (char *)memory), word;
    (void)number;
    if (at / WORD >= words) {
        end_at_fault();
    }
    protect(PROT_READ | PROT_WRITE);
    reached[at] = 1;
    for (word = 0; word < words; word++) {
        before[word] = memory[word];
        memory[word] = ~before[word];
    }
    on_complement = 1;
    memcpy(registers, machine->uc_mcontext.gregs, sizeof registers);
    machine->uc_mcontext.gregs[REG_EFL] |= TRAP_FLAG;
}

/* Notes the words that the store has reached. */
static void note_words(void) {
    size_t word, byte;
    unsigned bytes;
    for (word = 0; word < words; word++) {
        bytes = 0;
        for (byte = WORD * word; byte < WORD * (word + 1); byte++) {
            bytes += reached[byte];
            reached[byte] = 0;
        }
        stores[word] += bytes != 0;
        in_part += bytes != 0 && bytes != WORD;
    }
}

/* The store is made, on the complement or on the memory. */
static void on_step(int number, siginfo_t *info, void *context) {
    ucontext_t *machine = (ucontext_t *)context;
    const unsigned char *old = (const unsigned char *)before, *now = (const unsigned char *)memory;
    size_t byte;
    (void)number;
    (void)info;
    for (byte = 0; byte < WORD * words; byte++) {
        reached[byte] |= now[byte] != (on_complement ? (unsigned char)~old[byte] : old[byte]);
    }
    if (on_complement) {
        on_complement = 0;
        memcpy(memory, before, words * WORD);
        memcpy(machine->uc_mcontext.gregs, registers, sizeof registers);
        machine->uc_mcontext.gregs[REG_EFL] |= TRAP_FLAG;
        return;
    }
    note_words();
    protect(PROT_READ);
    machine->uc_mcontext.gregs[REG_EFL] &= ~(greg_t)TRAP_FLAG;
}

uint64_t *watchable(size_t count) {
    void *mapped = mmap(NULL, count * WORD, PROT_READ | PROT_WRITE, MAP_PRIVATE | MAP_ANONYMOUS, -1, 0);
    if (mapped == MAP_FAILED) {
        perror("watch: mmap");
        exit(2);
    }
    return (uint64_t *)mapped;
}

void watchable_free(uint64_t *mapped, size_t count) {
    munmap(mapped, count * WORD);
}

/* What is noted of the piece before goes. */
void watch(uint64_t *watched, size_t count) {
    free(stores);
    memory = watched;
    words = count;
    stores = (unsigned *)zeroed(count);
    in_part = 0;
    before = zeroed(count);
    reached = (unsigned char *)zeroed(count);
    handle(SIGSEGV, on_fault);
    handle(SIGTRAP, on_step);
    protect(PROT_READ);
}

void unwatch(void) {
    protect(PROT_READ | PROT_WRITE);
    free(before);
    free(reached);
}

unsigned noted(size_t word) {
    return stores[word];
}

uint64_t noted_in_part(void) {
    return in_part;
}

#else

typedef int not_here; /* a file of C has something in it */

#endif
