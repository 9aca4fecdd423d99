/* The medium: a mapped file, and how its stores are made to last. */
#ifndef MEDIUM_H
#define MEDIUM_H

#include <stddef.h>
#include <stdint.h>

enum barrier {
    BARRIER_FLUSH, /* persistent memory: the touched lines are flushed, then a fence */
    BARRIER_SYNC,  /* any other file: msync of the touched pages */
    BARRIER_NONE   /* none, for trials that no power failure is to outlast */
};

/* No script stores to more words than this between two barriers. */
enum { MEDIUM_PENDING = 32 };

struct medium {
    uint64_t *words; /* the mapping */
    size_t length;   /* in words */
    enum barrier barrier;
    int module;                     /* a barrier makes lasting what was flushed by medium_flush() */
    size_t pending[MEDIUM_PENDING]; /* words stored to since the last barrier, or on a module flushed, one for each line */
    size_t pending_count;
};

/* Maps the first `length` words of an open file, as a module with line flushes or not. A file on persistent memory, where the
 * kernel grants MAP_SYNC, gets BARRIER_FLUSH, any other BARRIER_SYNC. 0, or -1 with errno. */
int medium_map(struct medium *m, int fd, size_t length, int writable, int module);

int medium_unmap(struct medium *m);

/* One aligned 8-byte store. */
void medium_store(struct medium *m, size_t index, uint64_t value);

/* Flushes the line of a word: what was stored to it is lasting once a barrier has followed. 0, or -1 with errno. */
int medium_flush(struct medium *m, size_t index);

/* Returns when every store before it is lasting; on a module, every one whose line was flushed after it. 0, or -1 with errno. */
int medium_barrier(struct medium *m);

/* A store of the driver's own, lasting when this returns 0. */
int medium_settle(struct medium *m, size_t index, uint64_t value);

/* Makes words lasting that others stored to, flushing each of their lines: after Format and Recover, the whole image. */
int medium_barrier_over(struct medium *m, size_t first, size_t count);

#endif
