/* A power failure, simulated. */
#ifndef CRASH_H
#define CRASH_H

#include "medium.h"

struct crash {
    uint64_t after;  /* entries of scripts until the power fails */
    uint64_t passed; /* entries carried out so far */
    uint64_t seed;
    uint64_t state; /* of the generator, at first the seed */
};

static inline const char *entries_word(uint64_t count) {
    return count == 1 ? "entry" : "entries";
}

/* carry_out(), but if the power fails before the script has ended, or with its end, then the process ends there: each word that
 * was stored to has its lasting content or that of any one of the stores since. A store is lasting once a barrier has followed,
 * on a module once its line was flushed after it and then a barrier followed. */
int crash_carry_out(struct crash *c, struct medium *m, size_t image_at, const uint64_t *script, size_t words);

/* The recovered image: where it starts in the mapping, its length, node 0's locate word in it, and every node's from before. */
struct recovered {
    size_t image_at, image_words, locate_at;
    uint64_t nodes;
    const uint64_t *before;
};

/* The same for a recovery that has made its stores and passed no barrier yet: they are counted as a script's, in the sequence of
 * the nodes, on a module with a flush of each line of the image, and with the driver's barrier as its last entry. */
int crash_recovery(struct crash *c, struct medium *m, const struct recovered *r);

#endif
