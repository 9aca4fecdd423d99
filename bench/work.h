/* The operations of a run, the same for every column. */
#ifndef WORK_H
#define WORK_H

#include "bench.h"

/* A row has one batch for each repetition. On disk a batch is shorter, for a sync takes long. */
enum { REPETITIONS = 51, RECOVERIES = 9, BATCH = 2000, DISK_BATCH = 10, LISTED_REELS = 4 };

struct work {
    const char *name;
    size_t frames;
    size_t repetitions;
    size_t batch;
    struct op *load;
    struct op *ops[ROWS]; /* batch after batch */
};

/* Random frames in random reels. A batch inserts frames that are new and removes as many of the load. */
struct work random_work(size_t frames, size_t repetitions);

/* Every reel has the frames from 0 on, loaded one after the other. A batch inserts the frames that follow in one reel, and
 * removes that reel's first. */
struct work consecutive_work(size_t frames, size_t repetitions);

/* Lookups and lists never touch the disk: they are measured in memory alone. */
int is_measured(enum where where, enum row row);

/* The part of a row's operations that a column does in a repetition. */
const struct op *work_batch(const struct work *w, enum row row, enum where where, size_t repetition, size_t *count);

void free_work(struct work *w);

#endif
