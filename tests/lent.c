#define _DEFAULT_SOURCE 1 /* for MAP_ANONYMOUS */
#include "lent.h"

#include <signal.h>
#include <stdio.h>
#include <stdlib.h>
#include <string.h>
#include <sys/mman.h>
#include <unistd.h>

static const char *checked = "";

static void on_fault(int number) {
    static const char line[] = ": a store, or a load, where there may be none\n";
    ssize_t written = write(STDOUT_FILENO, checked, strlen(checked));
    (void)number;
    if (written >= 0) {
        written = write(STDOUT_FILENO, line, sizeof line - 1);
    }
    _exit(1);
}

size_t lent_length(size_t right, int wrong, unsigned variant) {
    return !wrong ? right : variant % 3 == 0 ? right - 1 : variant % 3 == 1 ? right + 1 : 0;
}

void lent_for(const char *what) {
    checked = what;
    signal(SIGSEGV, on_fault);
    fflush(stdout); /* lines of failures before it */
}

static size_t page(void) {
    return (size_t)sysconf(_SC_PAGESIZE);
}

static void protect(char *from, size_t bytes, int protection) {
    if (bytes > 0 && mprotect(from, bytes, protection) != 0) {
        perror("lent: mprotect");
        exit(2);
    }
}

void lend(struct lent *l, size_t count) {
    size_t bytes = count * sizeof *l->words;
    void *mapped;
    l->count = count;
    l->bytes = (bytes + page() - 1) / page() * page();
    mapped = mmap(NULL, l->bytes + 2 * page(), PROT_NONE, MAP_PRIVATE | MAP_ANONYMOUS, -1, 0);
    if (mapped == MAP_FAILED) {
        perror("lent: mmap");
        exit(2);
    }
    l->pages = (char *)mapped + page();
    l->words = count > 0 ? (uint64_t *)(void *)(l->pages + l->bytes - bytes) : NULL;
    lent_writable(l);
    memset(l->pages, JUNK, l->bytes);
}

void lent_read_only(const struct lent *l) {
    protect(l->pages, l->bytes, PROT_READ);
}

void lent_writable(const struct lent *l) {
    protect(l->pages, l->bytes, PROT_READ | PROT_WRITE);
}

void lent_back(struct lent *l) {
    const char *at;
    uint64_t wrong = 0;
    for (at = l->pages; at < l->pages + l->bytes - l->count * sizeof *l->words; at++) {
        wrong += *at != (char)JUNK;
    }
    equal(wrong, 0, "bytes stored to before a buffer");
    munmap(l->pages - page(), l->bytes + 2 * page());
}
