/* Tidy against the specification: which group it gives back, in trees drawn at random and in deep ones; that frames stay; that a
 * claim finds the nodes. Valid as C99 and as C++11. */
#include "tidy.h"

#include <string.h>

#include "tidy_call.h"

enum { TREES = 80, DAMAGES = 1500 /* of each, for each rule */ };

/* A reel's frames, in their sequence, in a list of its own. */
struct listed {
    uint64_t count, frames[LIST_WORDS];
};

static void list_reel(struct book *b, uint64_t reel, struct listed *l) {
    equal(book_list(b, LIST_WORDS, reel), REELBOOK_DONE, "list");
    l->count = b->count;
    memcpy(l->frames, b->list, (size_t)b->count * sizeof *b->list);
}

static void same_list(struct book *b, uint64_t reel, const struct listed *before) {
    static struct listed now;
    list_reel(b, reel, &now);
    equal(now.count, before->count, "how many frames are listed after Tidy");
    equal((uint64_t)memcmp(now.frames, before->frames, (size_t)before->count * sizeof *now.frames), 0, "the list after Tidy");
}

/* As after a power failure: recovery takes the image, and its map is the one that Tidy left. */
static void recovers(const struct book *from, uint64_t reel, const struct listed *before) {
    struct book b = *from;
    b.image = zeroed(b.image_words);
    b.map = junk(b.map_words);
    b.scratch = junk(b.map_words);
    memcpy(b.image, from->image, b.image_words * sizeof *b.image);
    equal(book_recover(&b), REELBOOK_DONE, "recover after Tidy");
    equal((uint64_t)memcmp(b.map, from->map, b.map_words * sizeof *b.map), 0, "the map that recovery finds after Tidy");
    same_list(&b, reel, before);
    book_free(&b);
}

static struct {
    unsigned two, four, nested; /* groups given back; those that the one just before had to go for */
} seen;

/* Call after call until 18, with a look at everything between two of them. */
static void tidy_reel(struct book *b, uint64_t reel, uint64_t slot) {
    static struct listed before;
    struct group g;
    uint64_t last = UINT64_MAX;
    list_reel(b, reel, &before);
    while (first_group(b, slot, &g)) {
        tidy_once(b, reel, slot, "tidy");
        seen.two += g.count == 2;
        seen.four += g.count == 4;
        seen.nested += last - g.first < g.count; /* the parent before is one of the group */
        last = g.parent;
        same_list(b, reel, &before);
        recovers(b, reel, &before);
    }
    tidy_once(b, reel, slot, "tidy without an empty group");
}

/* Faults: a bitmap or next not looked at, or of some children alone; another sequence; a group without its parent's store; the
 * parent given back, or fewer or more nodes than the group; groups of the other reel. */
static void check_trees(unsigned rule) {
    unsigned tree;
    for (tree = 0; tree < TREES; tree++) {
        struct book b;
        book_draw(&b, rule);
        tidy_reel(&b, DRAWN_REEL, DRAWN_SLOT);
        tidy_reel(&b, DRAWN_OTHER, DRAWN_SLOT + 1);
        book_free(&b);
    }
}

/* Of two filled slots with one number the first counts. */
static void check_slots(void) {
    unsigned tree;
    for (tree = 0; tree < TREES; tree++) {
        struct book b;
        book_draw(&b, EDITION_2);
        b.image[REELBOOK_HEADER_WORDS + REELBOOK_SLOT_WORDS * (DRAWN_SLOT + 1) + REELBOOK_SLOT_REEL] = DRAWN_REEL;
        tidy_once(&b, DRAWN_REEL, DRAWN_SLOT, "tidy of a reel in two slots");
        book_free(&b);
    }
}

/* A tree of all levels whose frames go: nothing is due while one is held at its end. Then each call gives back the deepest group,
 * and paths become shorter by one, down to the root alone. */
static void check_deep(unsigned rule) {
    struct book b;
    uint64_t level;
    book_make_deep(&b, rule);
    for (level = 0; level < LAST_LEVEL; level++) {
        equal(book_remove(&b, 7, level << 59), REELBOOK_DONE, "remove");
        equal(book_tidy(&b, 7), REELBOOK_NO_EMPTY_GROUP, "tidy above a frame that is held");
    }
    equal(book_remove(&b, 7, (uint64_t)LAST_LEVEL << 59), REELBOOK_DONE, "remove");
    for (level = LAST_LEVEL; level > 0; level--) {
        equal(book_has(&b, 7, 0), REELBOOK_DONE, "has");
        equal(b.nodes, level + 1, "nodes on a path before Tidy");
        equal(tidy_once(&b, 7, 0, "tidy of the deepest group"), REELBOOK_DONE, "a group at each level");
    }
    equal(book_has(&b, 7, 0), REELBOOK_DONE, "has");
    equal(b.nodes, 1, "nodes on a path when all groups went");
    equal(b.map[0], 1, "the root is all that is used");
    tidy_once(&b, 7, 0, "tidy of a root");
    book_free(&b);
}

/* One word of a node that the map has is another: 4 exactly where List has it, and else the group that is due. So no group is
 * given back, though it comes first, where a node after it is malformed or reached twice. */
static void damage(struct book *b) {
    static const uint64_t sizes[] = {0, 16, 32, 63, 64, 65, UINT64_MAX};
    uint64_t node = drawn() % DRAWN_NODES, word = drawn() % 5, *at;
    while ((b->map[node / 64] >> node % 64 & 1) == 0) {
        node = (node + 1) % DRAWN_NODES;
    }
    at = &b->image[node_index(b, node, word)];
    if (word == REELBOOK_NODE_NEXT) {
        *at = drawn() % 4 == 0 ? UINT64_MAX - drawn() % 8 : drawn() % (DRAWN_NODES + 4);
    } else if (word == REELBOOK_NODE_SIZE) {
        *at = sizes[drawn() % 7];
    } else if (word == REELBOOK_NODE_LEVEL) {
        *at += drawn() % 3 == 0 ? UINT64_C(1) << 32 : drawn() % 2 == 0 ? 1 : UINT64_MAX;
    } else {
        *at ^= UINT64_C(1) << drawn() % 64;
    }
}

/* Two nodes of a level have their children in common: each node is as it should be, and these are reached twice. */
static void share_children(struct book *b) {
    uint64_t root = slot_word(b, DRAWN_SLOT, REELBOOK_SLOT_ROOT) - 1, next = node_word(b, root, REELBOOK_NODE_NEXT);
    if (next != 0 && node_word(b, next - 1, REELBOOK_NODE_NEXT) != 0) {
        b->image[node_index(b, next, REELBOOK_NODE_NEXT)] = node_word(b, next - 1, REELBOOK_NODE_NEXT);
    }
}

static void check_damaged(unsigned rule) {
    unsigned round, malformed = 0, taken = 0;
    for (round = 0; round < DAMAGES; round++) {
        struct book b;
        struct call c;
        book_draw(&b, rule);
        if (round % 8 == 0) {
            share_children(&b);
        } else {
            damage(&b);
        }
        if (book_list(&b, LIST_WORDS, DRAWN_REEL) == REELBOOK_MALFORMED) {
            lend_call(&c, &b, right_lengths(&b), DRAWN_REEL);
            check_call(&c, REELBOOK_MALFORMED, "tidy of a malformed tree");
            call_back(&c);
            malformed++;
        } else {
            taken += tidy_once(&b, DRAWN_REEL, DRAWN_SLOT, "tidy of a damaged book") == REELBOOK_DONE;
        }
        book_free(&b);
    }
    equal(malformed > DAMAGES / 10 && taken > DAMAGES / 20, 1, "damaged books of both kinds");
}

/* The nodes that a claim needs come from another reel, or from its own: 8 before, and then the nodes that were given back. */
static void check_room(uint64_t reel) {
    struct book b;
    book_format(&b, 2, 4);
    equal(book_open(&b, 7), REELBOOK_DONE, "open");
    book_add(&b, 7, 0, 1, 65);
    equal(book_open(&b, 8), REELBOOK_DONE, "open");
    book_add(&b, 8, 0, 1, 64);
    equal(book_claim(&b, 0, 8, 64), REELBOOK_NO_RUN, "claim without free nodes");
    equal(book_remove(&b, 7, 64), REELBOOK_DONE, "remove");
    equal(book_claim(&b, 0, 8, 64), REELBOOK_NO_RUN, "claim before Tidy");
    equal(tidy_once(&b, 7, 0, "tidy that makes room"), REELBOOK_DONE, "a group");
    equal(book_claim(&b, 0, reel, 65), REELBOOK_DONE, "claim after Tidy");
    equal(head_word(&b, 0, REELBOOK_HEAD_NODE_AT), 2, "the node that was given back");
    equal(book_tidy(&b, reel), REELBOOK_BUSY, "tidy beside a claim");
    equal(book_tidy(&b, 15 - reel), REELBOOK_NO_EMPTY_GROUP, "tidy beside another reel's claim");
    equal(book_abandon(&b, 0), REELBOOK_DONE, "abandon");
    equal(book_tidy(&b, reel), REELBOOK_DONE, "tidy after a claim was abandoned");
    book_free(&b);
}

/* A claim that needs four adjacent nodes: two are not enough, nor are two and two apart from each other. */
static void check_room_of_four(void) {
    struct book b;
    uint64_t reel;
    book_format(&b, 3, 13);
    equal(book_open(&b, 7), REELBOOK_DONE, "open");
    book_add(&b, 7, 0, 8, 256); /* nodes 0 to 6, a path of four that are full */
    for (reel = 8; reel <= 9; reel++) {
        equal(book_open(&b, reel), REELBOOK_DONE, "open");
        book_add(&b, reel, 0, 1, 65); /* 7 with 8 and 9, 10 with 11 and 12 */
        equal(book_remove(&b, reel, 64), REELBOOK_DONE, "remove");
    }
    for (reel = 8; reel <= 9; reel++) {
        equal(book_claim(&b, 0, 7, 8 * 256), REELBOOK_NO_RUN, "claim of four");
        equal(tidy_once(&b, reel, reel - 7, "tidy of two"), REELBOOK_DONE, "a group");
    }
    equal(book_claim(&b, 0, 7, 8 * 256), REELBOOK_NO_RUN, "claim of four where two and two are free");
    equal(book_retire(&b, 9), REELBOOK_DONE, "retire");
    equal(book_claim(&b, 0, 7, 8 * 256), REELBOOK_DONE, "claim of four");
    equal(head_word(&b, 0, REELBOOK_HEAD_NODE_AT), 8, "the first node that was given back");
    book_free(&b);
}

void check_tidying(void) {
    unsigned rule;
    for (rule = EDITION_1; rule <= OWN_TABLE; rule++) {
        check_trees(rule);
        check_deep(rule);
        check_damaged(rule);
    }
    equal(seen.two > TREES && seen.four > TREES / 4 && seen.nested > TREES / 4, 1, "groups of each kind");
    check_slots();
    check_room(7);
    check_room(8);
    check_room_of_four();
}
