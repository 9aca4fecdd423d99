/* Batches of calls of one operation, by one build of the library. */
#ifndef BATCHES_H
#define BATCHES_H

#include "reelbook.h"

enum operation { FORMAT, RECOVER, OPEN, CLAIM, FILL, COMMIT, ABANDON, REMOVE, HIT, MISS, LIST, RETIRE, TIDY, TRANSLATE_50,
                 TRANSLATE_4, OPERATIONS };

enum { SLOTS = 8, NODES = 128, MAP_WORDS = (NODES + 63) / 64, LIST_WORDS = 1024, MODULE_WORDS = 98, CALLS = 64 };

/* What an operation changes is each call's own, so that all calls of a batch find the same. */
struct call {
    uint64_t frame;
    uint64_t map[MAP_WORDS];
    uint64_t heads[REELBOOK_HEADS_WORDS]; /* head 0 is at work */
};

struct batch {
    uint64_t *image;
    size_t image_words;
    const uint8_t *table; /* that Format is given; NULL and 0 for none */
    size_t table_bytes;
    uint64_t reel;
    size_t count; /* of the calls, from the first on */
    struct call calls[CALLS];
    uint64_t scratch[MAP_WORDS];
    uint64_t script[REELBOOK_SCRIPT_WORDS];
    uint64_t list[LIST_WORDS];
    uint64_t longest[REELBOOK_SCRIPT_WORDS], shortest[4], module[MODULE_WORDS]; /* scripts to translate, and what they become */
    uint64_t number, left, nodes; /* what the last call handed back */
};

/* A batch hands back all answers in one: 0 if every call ended as it should. */
struct build {
    uint64_t (*run[OPERATIONS])(struct batch *batch); /* NULL if the build has no such operation */
    int tells_nodes; /* on a path, when a frame is looked up */
};

/* Each build four times, by where its code starts in a line of the cache. */
extern const struct build before_16, before_32, before_48, before_64, now_16, now_32, now_48, now_64;

#endif
