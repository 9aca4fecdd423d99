#include "images.h"

#include <string.h>

enum { PLACES = 64, STRIDE = 631, FEW = 10 };

/* A frame in each place, held or not. Its low bits, below the unit, are those of the way to the node. */
static void make_node(uint64_t *node, const struct plan *p, uint64_t suffix, uint64_t unit) {
    for (unsigned place = 0; place < PLACES; place++) {
        uint64_t frame = drawn() * unit + suffix;
        node[REELBOOK_NODE_FRAMES + place] = frame;
        node[REELBOOK_NODE_FINGERPRINTS + place / 8] |= (uint64_t)fingerprint(p->rule, frame) << 8 * (place % 8);
    }
    node[REELBOOK_NODE_SET] = p->contents == HALF_FULL ? drawn() : p->contents == ONE_HELD ? 1 : UINT64_MAX;
    node[REELBOOK_NODE_LOCATE] = node[REELBOOK_NODE_SET];
    node[REELBOOK_NODE_SIZE] = PLACES;
}

/* All reels grow level by level while there is room. The nodes of a level get their children by a stride: the groups of a reel
 * lie between those of others. */
static void make_trees(uint64_t *image, const struct plan *p) {
    static uint64_t suffixes[REELBOOK_MAX_NODES];
    uint64_t first = 0, taken = p->slots, unit = 1;
    memset(suffixes, 0, sizeof suffixes);
    for (uint64_t level = 0; first < taken; level++) {
        uint64_t count = taken - first, children = level < 3 ? 2 : 4;
        for (uint64_t i = 0; i < count; i++) {
            uint64_t n = first + i * STRIDE % count, *node = image + reelbook_image_words(p->slots, n);
            make_node(node, p, suffixes[n], unit);
            node[REELBOOK_NODE_LEVEL] = level;
            if (children > p->nodes - taken)
                continue;
            node[REELBOOK_NODE_NEXT] = taken + 1;
            for (uint64_t child = 0; child < children; child++)
                suffixes[taken++] = suffixes[n] + child * unit;
        }
        first += count;
        unit *= children;
    }
}

void make_image(uint64_t *image, const struct plan *p) {
    memset(image, 0, reelbook_image_words(p->slots, p->nodes) * sizeof *image);
    image[REELBOOK_EDITION_AT] = p->rule == EDITION_1 ? REELBOOK_EDITION_1 : REELBOOK_EDITION_2;
    image[REELBOOK_SLOTS_AT] = p->slots;
    image[REELBOOK_NODES_AT] = p->nodes;
    for (uint64_t s = 0; s < p->slots; s++) {
        uint64_t *slot = image + REELBOOK_HEADER_WORDS + REELBOOK_SLOT_WORDS * s;
        slot[REELBOOK_SLOT_REEL] = s;
        slot[REELBOOK_SLOT_ROOT] = p->contents == FEW_REACHED && s % FEW != 0 ? 0 : s + 1;
    }
    make_trees(image, p);
}
