/* The benchmark: what it measures, and what a store offers to be measured. */
#ifndef BENCH_H
#define BENCH_H

#include "medium.h"

#include <stddef.h>
#include <stdint.h>

/* The reels have the numbers below REELS. */
enum { REELS = 256, NODES = 65536 };

struct op {
    uint64_t reel;
    uint64_t frame;
};

enum row { INSERT, REMOVE, HIT, MISS, LIST, RECOVERY, ROWS };

/* Where a store's files are: in memory, where syncing a file costs nothing, or on disk. */
enum where { MEMORY, DISK, PLACES };

struct column {
    const char *name;
    const struct store *store;
    enum where where;
    enum barrier barrier; /* of the reel book and its floors */
};

/* No function here reports a failure: it says in one line what failed, and ends the program. */
struct store {
    /* A new store with all reels and no frame, in the file `path` and in files with longer names. */
    void *(*open)(const struct column *column, const char *path);
    /* Many inserts at once, lasting at the end. Not timed. */
    void (*load)(void *state, const struct op *ops, size_t count);
    /* What must be done or known before a batch. Not timed; may be NULL. */
    void (*prepare)(void *state, enum row row, const struct op *ops, size_t count);
    /* A batch, timed. Hands back how many frames it inserted, removed, found or listed; a recovery ends with one lookup. A floor
     * looks for nothing: it hands back the count. */
    size_t (*run[ROWS])(void *state, const struct op *ops, size_t count);
    /* Bytes in use, after the load. */
    double (*bytes)(void *state);
    /* Removes the files too. */
    void (*close)(void *state);
};

extern const struct store book_store, hand_store, floor_store, lmdb_store, sqlite_store, pmemobj_store;
extern const struct store before_store; /* the book's earlier build, where one is given */

/* Says what failed, with errno's text where `because` is NULL, and ends the program. */
void fail(const char *what, const char *because) __attribute__((noreturn));

/* Zeroed memory. */
void *allocate(size_t count, size_t size);

void remove_file(const char *path, const char *suffix);

/* Room for the longest list. */
enum { LIST_WORDS = 1 << 16 };

#endif
