#include "survey.h"

#include <stdlib.h>

void tally_node(struct tally *t, const uint64_t *node) {
    t->nodes++;
    t->places += node[REELBOOK_NODE_SIZE];
    t->located += (uint64_t)__builtin_popcountll(node[REELBOOK_NODE_LOCATE]);
    t->frames += (uint64_t)__builtin_popcountll(node[REELBOOK_NODE_SET]);
}

static void count_node(struct survey *s, struct survey_reel *r, const uint64_t *node, unsigned level) {
    tally_node(&r->levels[level], node);
    tally_node(&r->total, node);
    tally_node(&s->total, node);
    r->deepest = level > r->deepest ? level : r->deepest;
}

/* EMPTY: no place in it is held or claimed, so that tidy frees all of it but its root, and that too where its siblings are EMPTY.
 * BROKEN: it cannot be walked through. */
enum subtree { BROKEN, IN_USE, EMPTY };

/* No node is gone to twice, so that it ends on any image. */
static enum subtree visit(struct survey *s, struct survey_reel *r, const struct book *b, uint64_t number, unsigned level) {
    if (level >= SURVEY_LEVELS || number >= b->file.nodes || s->owners[number] != 0)
        return BROKEN;
    const uint64_t *node = book_node(b, number);
    unsigned children = node[REELBOOK_NODE_NEXT] != 0 ? survey_fanout(level) : 0, empty = 0;
    count_node(s, r, node, level);
    s->owners[number] = (uint32_t)(r - s->reels) + 1;
    if (node[REELBOOK_NODE_SIZE] > NODE_PLACES)
        return BROKEN;
    for (unsigned child = 0; child < children; child++) {
        enum subtree below = visit(s, r, b, node[REELBOOK_NODE_NEXT] - 1 + child, level + 1);
        if (below == BROKEN)
            return BROKEN;
        empty += below == EMPTY;
    }
    if (empty < children)
        return IN_USE;
    r->to_free += children;
    return (node[REELBOOK_NODE_LOCATE] | node[REELBOOK_NODE_SET]) == 0 ? EMPTY : IN_USE;
}

static int visit_reels(struct survey *s, const struct book *b) {
    for (uint64_t slot = 0; slot < b->file.slots; slot++) {
        const uint64_t *words = book_slot(b, slot);
        if (words[REELBOOK_SLOT_ROOT] == 0)
            continue;
        struct survey_reel *r = &s->reels[s->count++];
        *r = (struct survey_reel){.reel = words[REELBOOK_SLOT_REEL], .slot = slot, .root = words[REELBOOK_SLOT_ROOT] - 1};
        if (visit(s, r, b, r->root, 0) == BROKEN)
            return 0;
        s->deepest = r->deepest > s->deepest ? r->deepest : s->deepest;
        s->to_free += r->to_free;
    }
    return 1;
}

uint64_t survey_take(struct survey *s, const struct book *b) {
    *s = (struct survey){.reels = malloc((size_t)b->file.slots * sizeof *s->reels),
                         .owners = calloc((size_t)b->file.nodes, sizeof *s->owners)};
    uint64_t answer = !s->reels || !s->owners ? BOOK_SYSTEM : visit_reels(s, b) ? REELBOOK_DONE : REELBOOK_MALFORMED;
    if (answer != REELBOOK_DONE)
        survey_free(s);
    return answer;
}

void survey_free(struct survey *s) {
    free(s->reels);
    free(s->owners);
}
