#include "work.h"

#include <stdlib.h>
#include <string.h>

/* Splitmix64 from a fixed seed. */
static uint64_t random_word(void) {
    static uint64_t seed = 1;
    uint64_t z = seed += 0x9e3779b97f4a7c15;
    z = (z ^ z >> 30) * 0xbf58476d1ce4e5b9;
    z = (z ^ z >> 27) * 0x94d049bb133111eb;
    return z ^ z >> 31;
}

static size_t random_below(size_t bound) {
    return (size_t)(random_word() % bound);
}

static struct op random_op(void) {
    return (struct op){random_word() % REELS, random_word()};
}

static struct work empty_work(const char *name, size_t frames, size_t repetitions, size_t longest) {
    struct work w = {.name = name, .frames = frames, .repetitions = repetitions, .batch = longest < BATCH ? longest : BATCH};
    w.load = allocate(frames, sizeof *w.load);
    for (enum row row = 0; row < ROWS; row++)
        w.ops[row] = allocate(w.batch * repetitions, sizeof *w.ops[row]);
    for (size_t i = 0; i < w.batch * repetitions; i++)
        w.ops[LIST][i].reel = i % REELS;
    return w;
}

/* What was loaded early lies near the roots: what is removed or looked up is drawn from all of the load. */
static struct op *shuffled(const struct op *ops, size_t count) {
    struct op *mixed = allocate(count, sizeof *mixed);
    for (size_t i = 0; i < count; i++) {
        size_t j = random_below(i + 1);
        mixed[i] = mixed[j];
        mixed[j] = ops[i];
    }
    return mixed;
}

struct work random_work(size_t frames, size_t repetitions) {
    /* Half of the load at most is removed in the end; the other half is looked up. */
    struct work w = empty_work("random", frames, repetitions, frames / 2 / repetitions);
    for (size_t i = 0; i < frames; i++)
        w.load[i] = random_op();
    struct op *mixed = shuffled(w.load, frames);
    size_t removed = w.batch * repetitions;
    for (size_t i = 0; i < removed; i++) {
        w.ops[INSERT][i] = random_op();
        w.ops[REMOVE][i] = mixed[i];
        w.ops[HIT][i] = w.ops[RECOVERY][i] = mixed[removed + random_below(frames - removed)];
        w.ops[MISS][i] = random_op();
    }
    free(mixed);
    return w;
}

struct work consecutive_work(size_t frames, size_t repetitions) {
    size_t length = frames / REELS + 1, full = frames / length; /* the last reels may be shorter */
    struct work w = empty_work("consecutive", frames, repetitions, length / 2);
    for (size_t i = 0; i < frames; i++)
        w.load[i] = (struct op){i / length, i % length};
    for (size_t i = 0; i < w.batch * repetitions; i++) {
        size_t reel = i / w.batch, at = i % w.batch, other = random_below(full);
        w.ops[INSERT][i] = (struct op){reel, length + at};
        w.ops[REMOVE][i] = (struct op){reel, at};
        w.ops[HIT][i] = w.ops[RECOVERY][i] = (struct op){other, w.batch + random_below(length - w.batch)};
        w.ops[MISS][i] = (struct op){other, 2 * length + random_below(length)};
    }
    return w;
}

int is_measured(enum where where, enum row row) {
    return where == MEMORY || row == INSERT || row == REMOVE || row == RECOVERY;
}

const struct op *work_batch(const struct work *w, enum row row, enum where where, size_t repetition, size_t *count) {
    size_t distance = w->batch;
    if (row == LIST)
        *count = distance = LISTED_REELS;
    else if (row == RECOVERY)
        *count = 1;
    else
        *count = where == DISK && w->batch > DISK_BATCH ? DISK_BATCH : w->batch;
    return w->ops[row] + repetition * distance;
}

void free_work(struct work *w) {
    free(w->load);
    for (enum row row = 0; row < ROWS; row++)
        free(w->ops[row]);
}
