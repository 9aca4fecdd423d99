/* Images made word by word, for works that walk through whole trees. */
#ifndef IMAGES_H
#define IMAGES_H

#include "../tests/book.h" /* not the one here */

/* Frames in every node: in all places, in half of them, or in one. Few are reached where one reel of ten is left. The others were
 * retired: their nodes, full, are as they were. */
enum contents { FULL, HALF_FULL, ONE_HELD, FEW_REACHED };

/* The reels have the numbers of their slots. */
struct plan {
    enum contents contents;
    unsigned rule;
    uint64_t slots, nodes;
};

void make_image(uint64_t *image, const struct plan *p);

#endif
