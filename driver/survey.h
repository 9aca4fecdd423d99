/* A book counted, reel by reel and level by level. */
#ifndef SURVEY_H
#define SURVEY_H

#include "book.h"

/* A tree has levels 0 to 31; a node has two children below level 3 and four from there on, where it has any. */
enum { SURVEY_LEVELS = 32, SURVEY_WIDE_LEVEL = 3, SURVEY_MOST_CHILDREN = 4 };

static inline unsigned survey_fanout(unsigned level) {
    return level < SURVEY_WIDE_LEVEL ? 2 : SURVEY_MOST_CHILDREN;
}

struct tally {
    uint64_t nodes, places, located, frames;
};

/* Adds a node. */
void tally_node(struct tally *t, const uint64_t *node);

struct survey_reel {
    uint64_t reel, slot, root;
    unsigned deepest; /* level */
    uint64_t to_free; /* nodes that tidy frees */
    struct tally total, levels[SURVEY_LEVELS];
};

struct survey {
    size_t count; /* of reels */
    struct survey_reel *reels;
    uint32_t *owners; /* for each node 1 + its reel's number in `reels`, or 0 if it is free */
    unsigned deepest;
    uint64_t to_free;
    struct tally total;
};

/* How many nodes are on the longest path of a frame: each node is on some frame's, and the deepest ends it. */
static inline uint64_t survey_path(const struct survey_reel *r) {
    return r->deepest + UINT64_C(1);
}

/* The same over all reels; 0 if there are none. */
static inline uint64_t survey_longest_path(const struct survey *s) {
    return s->count > 0 ? s->deepest + UINT64_C(1) : 0;
}

/* REELBOOK_MALFORMED if the trees cannot be walked through; book_check() finds the rest. */
uint64_t survey_take(struct survey *s, const struct book *b);

void survey_free(struct survey *s);

#endif
