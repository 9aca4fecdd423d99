/* Books with groups of empty nodes, for the test programs, and which of these the specification gives back first. Valid as C99
 * and as C++11. */
#ifndef GROUPS_H
#define GROUPS_H

#include "book.h"

/* Two reels with trees drawn at random, in slots 1 and 2; slot 0 is empty and has the first one's number. Nodes are empty, or
 * have a place held, claimed, or held and not located; their groups lie all over the pool. The image is sound, and the heads are
 * idle. */
enum { DRAWN_REEL = 7, DRAWN_OTHER = 9, DRAWN_SLOT = 1, DRAWN_SLOTS = 3, DRAWN_NODES = 150 };
void book_draw(struct book *b, unsigned rule);

struct group {
    uint64_t parent, first, count;
};

/* The first node with children, in the order of List, all of whose children have both bitmaps 0 and next 0. 1 if there is one in
 * the tree of this slot, in which no node is malformed or reached twice. */
int first_group(const struct book *b, uint64_t slot, struct group *found);

#endif
