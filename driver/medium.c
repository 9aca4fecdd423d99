#define _DEFAULT_SOURCE 1 /* for MAP_SYNC */
#include "medium.h"

#include <sys/mman.h>
#include <unistd.h>

enum { LINE_WORDS = 8 };

/* One msync from the first page to the last. Between two touched pages it finds clean ones, which cost nothing. */
static int sync_pages(const struct medium *m, size_t first, size_t count) {
    size_t page = (size_t)sysconf(_SC_PAGESIZE) / sizeof(uint64_t);
    size_t start = first / page * page;
    return msync(m->words + start, (first + count - start) * sizeof(uint64_t), MS_SYNC);
}

#if defined(__x86_64__)
#include <cpuid.h>

enum { CPUID_FEATURES = 7, EBX_CLFLUSHOPT = 1 << 23, EBX_CLWB = 1 << 24 };

typedef void flush_line(const uint64_t *word);

static void flush_by_clwb(const uint64_t *word) {
    __asm__ volatile("clwb %0" : : "m"(*word) : "memory");
}

static void flush_by_clflushopt(const uint64_t *word) {
    __asm__ volatile("clflushopt %0" : : "m"(*word) : "memory");
}

static void flush_by_clflush(const uint64_t *word) {
    __asm__ volatile("clflush %0" : : "m"(*word) : "memory");
}

/* clwb keeps the line in the cache, clflushopt drops it, clflush, which every x86-64 has, also waits for the one before. */
static flush_line *best_flush(void) {
    unsigned eax, ebx, ecx, edx;
    if (!__get_cpuid_count(CPUID_FEATURES, 0, &eax, &ebx, &ecx, &edx))
        return flush_by_clflush;
    if (ebx & EBX_CLWB)
        return flush_by_clwb;
    return ebx & EBX_CLFLUSHOPT ? flush_by_clflushopt : flush_by_clflush;
}

/* Flushed lines are lasting after the fence. */
static int flush(const struct medium *m, size_t first, size_t count) {
    static flush_line *flush_one;
    if (!flush_one)
        flush_one = best_flush();
    for (size_t at = first / LINE_WORDS * LINE_WORDS; at < first + count; at += LINE_WORDS)
        flush_one(m->words + at);
    return 0;
}

static void fence(void) {
    __asm__ volatile("sfence" : : : "memory");
}

static void *map_persistent(int fd, size_t bytes) {
#if defined(MAP_SYNC)
    return mmap(NULL, bytes, PROT_READ | PROT_WRITE, MAP_SHARED_VALIDATE | MAP_SYNC, fd, 0);
#else
    (void)fd, (void)bytes;
    return MAP_FAILED;
#endif
}
#else
/* How to flush a line is known here for x86-64 alone. */
static int flush(const struct medium *m, size_t first, size_t count) {
    return sync_pages(m, first, count);
}

static void fence(void) {
}

static void *map_persistent(int fd, size_t bytes) {
    (void)fd, (void)bytes;
    return MAP_FAILED;
}
#endif

static int flush_pending(const struct medium *m) {
    for (size_t i = 0; i < m->pending_count; i++)
        if (flush(m, m->pending[i], 1) != 0)
            return -1;
    fence();
    return 0;
}

static int sync_pending(const struct medium *m) {
    if (m->pending_count == 0)
        return 0;
    size_t low = m->pending[0], high = low;
    for (size_t i = 1; i < m->pending_count; i++) {
        low = m->pending[i] < low ? m->pending[i] : low;
        high = m->pending[i] > high ? m->pending[i] : high;
    }
    return sync_pages(m, low, high - low + 1);
}

int medium_map(struct medium *m, int fd, size_t length, int writable, int module) {
    size_t bytes = length * sizeof(uint64_t);
    void *words = writable ? map_persistent(fd, bytes) : MAP_FAILED;
    *m = (struct medium){.length = length, .barrier = words == MAP_FAILED ? BARRIER_SYNC : BARRIER_FLUSH, .module = module};
    if (words == MAP_FAILED)
        words = mmap(NULL, bytes, writable ? PROT_READ | PROT_WRITE : PROT_READ, MAP_SHARED, fd, 0);
    if (words == MAP_FAILED)
        return -1;
    m->words = words;
    return 0;
}

int medium_unmap(struct medium *m) {
    return munmap(m->words, m->length * sizeof(uint64_t));
}

/* For the next barrier. A count above MEDIUM_PENDING stands for more lines than can be remembered: it then takes the whole
 * mapping. */
static void remember(struct medium *m, size_t index) {
    size_t count = m->pending_count;
    if (count > MEDIUM_PENDING || (count > 0 && m->pending[count - 1] / LINE_WORDS == index / LINE_WORDS))
        return;
    if (count < MEDIUM_PENDING)
        m->pending[count] = index;
    m->pending_count++;
}

void medium_store(struct medium *m, size_t index, uint64_t value) {
    __atomic_store_n(&m->words[index], value, __ATOMIC_RELAXED);
    if (!m->module)
        remember(m, index);
}

/* A module's barrier is a fence alone, where lines can be flushed. */
int medium_flush(struct medium *m, size_t index) {
    if (m->module && m->barrier == BARRIER_FLUSH)
        return flush(m, index, 1);
    remember(m, index);
    return 0;
}

int medium_barrier(struct medium *m) {
    int failed = 0;
    if (m->pending_count > MEDIUM_PENDING)
        failed = medium_barrier_over(m, 0, m->length);
    else if (m->barrier == BARRIER_FLUSH)
        failed = flush_pending(m);
    else if (m->barrier == BARRIER_SYNC)
        failed = sync_pending(m);
    if (!failed)
        m->pending_count = 0;
    return failed;
}

int medium_settle(struct medium *m, size_t index, uint64_t value) {
    medium_store(m, index, value);
    return medium_flush(m, index) != 0 ? -1 : medium_barrier(m);
}

int medium_barrier_over(struct medium *m, size_t first, size_t count) {
    if (m->barrier == BARRIER_NONE)
        return 0;
    if (m->barrier == BARRIER_SYNC)
        return sync_pages(m, first, count);
    int failed = flush(m, first, count);
    fence();
    return failed;
}
