#include "groups.h"

#include <string.h>

/* The nodes that no tree has yet are from low on and below high. Of so many kinds of node all but four are empty. */
struct drawing {
    struct book *b;
    unsigned rule;
    uint64_t low, high, kinds;
};

/* Adjacent nodes, from the pool's start or end. */
static uint64_t take(struct drawing *d, uint64_t count) {
    uint64_t node, first = drawn() % 2 == 0 ? d->low : d->high - count;
    if (first == d->low) {
        d->low += count;
    } else {
        d->high -= count;
    }
    for (node = first; node < first + count; node++) {
        d->b->map[node / 64] |= UINT64_C(1) << node % 64;
    }
    return first;
}

/* The frame goes to this node, and there is none like it: its five upper bits, which decide no child, are the level. */
static void hold(struct drawing *d, uint64_t *node, uint64_t place, uint64_t suffix, uint64_t level) {
    uint64_t frame = suffix | level << 59;
    node[REELBOOK_NODE_SET] = UINT64_C(1) << place;
    node[REELBOOK_NODE_FRAMES + place] = frame;
    node[REELBOOK_NODE_FINGERPRINTS + place / 8] = (uint64_t)fingerprint(d->rule, frame) << 8 * (place % 8);
}

/* The suffix has the frame's bits that lead to this node. */
static void draw_tree(struct drawing *d, uint64_t number, uint64_t level, uint64_t suffix) {
    uint64_t *node = &d->b->image[node_index(d->b, number, 0)], count = fanout(level), kind = drawn() % d->kinds, start, i;
    int branched = level < LAST_LEVEL && d->high - d->low > count && drawn() % 2 == 0; /* a node is left for the other root */
    memset(node, 0, REELBOOK_NODE_WORDS * sizeof *node);
    node[REELBOOK_NODE_LEVEL] = level;
    node[REELBOOK_NODE_SIZE] = level == 0 && !branched ? (uint64_t)16 << drawn() % 3 : 64;
    if (kind < 3) {
        hold(d, node, drawn() % node[REELBOOK_NODE_SIZE], suffix, level);
    }
    node[REELBOOK_NODE_LOCATE] = kind < 2 ? node[REELBOOK_NODE_SET] :
                                 kind == 3 ? UINT64_C(1) << drawn() % node[REELBOOK_NODE_SIZE] :
                                             0;
    if (!branched) {
        return;
    }
    node[REELBOOK_NODE_NEXT] = take(d, count) + 1;
    start = drawn();
    for (i = 0; i < count; i++) {
        uint64_t child = (start + i) % count;
        draw_tree(d, node[REELBOOK_NODE_NEXT] - 1 + child, level + 1, suffix | frame_to(level, child));
    }
}

static void draw_reel(struct drawing *d, uint64_t slot, uint64_t reel) {
    static const uint64_t kinds[] = {5, 10, 40};
    uint64_t *words = &d->b->image[REELBOOK_HEADER_WORDS + REELBOOK_SLOT_WORDS * slot], root = take(d, 1);
    words[REELBOOK_SLOT_REEL] = reel;
    words[REELBOOK_SLOT_ROOT] = root + 1;
    d->kinds = kinds[drawn() % 3];
    draw_tree(d, root, 0, 0);
}

void book_draw(struct book *b, unsigned rule) {
    struct drawing d;
    d.b = b;
    d.rule = rule;
    d.low = 0;
    d.high = DRAWN_NODES;
    book_format_as(b, rule, DRAWN_SLOTS, DRAWN_NODES);
    b->image[REELBOOK_HEADER_WORDS + REELBOOK_SLOT_REEL] = DRAWN_REEL;
    if (drawn() % 2 == 0) { /* the one that comes first has the most nodes */
        draw_reel(&d, DRAWN_SLOT, DRAWN_REEL);
        draw_reel(&d, DRAWN_SLOT + 1, DRAWN_OTHER);
    } else {
        draw_reel(&d, DRAWN_SLOT + 1, DRAWN_OTHER);
        draw_reel(&d, DRAWN_SLOT, DRAWN_REEL);
    }
}

static int first_below(const struct book *b, uint64_t node, uint64_t level, struct group *found) {
    uint64_t next = node_word(b, node, REELBOOK_NODE_NEXT), count = fanout(level), empty = 0, child;
    if (next == 0) {
        return 0;
    }
    for (child = next - 1; child < next - 1 + count; child++) {
        empty += node_word(b, child, REELBOOK_NODE_NEXT) == 0 && node_word(b, child, REELBOOK_NODE_LOCATE) == 0 &&
                 node_word(b, child, REELBOOK_NODE_SET) == 0;
    }
    if (empty == count) {
        found->parent = node;
        found->first = next - 1;
        found->count = count;
        return 1;
    }
    for (child = next - 1; child < next - 1 + count; child++) {
        if (first_below(b, child, level + 1, found)) {
            return 1;
        }
    }
    return 0;
}

int first_group(const struct book *b, uint64_t slot, struct group *found) {
    return first_below(b, slot_word(b, slot, REELBOOK_SLOT_ROOT) - 1, 0, found);
}
