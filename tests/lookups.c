/* Has against the specification: how many nodes are on a frame's path, wherever the frame is found on it, and if it is not; what
 * each refusal hands back; and for which reels the number is 1. Each number is junk before a call, and book_has compares it with
 * the path in the image's words. Valid as C99 and as C++11. */
#include "lookups.h"

#include <stdlib.h>
#include <string.h>

#include "lent.h"

enum { REEL = 7, REELS = 3, NODES = 8, ROOM = 64 /* places of a root */ };

static void expect(struct book *b, uint64_t frame, uint64_t yes, uint64_t nodes, const char *what) {
    equal(book_has(b, REEL, frame), REELBOOK_DONE, what);
    equal(b->yes, yes, what);
    equal(b->nodes, nodes, what);
}

static void refuse(struct book *b, uint64_t reel, uint64_t frame, uint64_t answer, const char *what) {
    equal(book_has(b, reel, frame), answer, what);
    equal(b->nodes, 0, what);
}

/* Every number from 2 to 32, by a frame that leaves the one long path at this level, for another child without children; and 32
 * wherever on that path a frame is held. The five upper bits decide no child. */
static void check_numbers(unsigned rule) {
    struct book b;
    uint64_t level, number;
    book_make_deep(&b, rule);
    for (level = 0; level < LAST_LEVEL; level++) {
        for (number = 1; number < fanout(level); number++) {
            expect(&b, frame_to(level, number), 0, level + 2, "has of a frame that leaves the path");
            expect(&b, frame_to(level, number) | UINT64_C(31) << 59, 0, level + 2, "has of one with its upper bits");
        }
    }
    for (level = 0; level <= LAST_LEVEL; level++) {
        expect(&b, level << 59, 1, LAST_LEVEL + 1, "has of a frame of the path");
        equal(book_remove(&b, REEL, level << 59), REELBOOK_DONE, "remove");
        expect(&b, level << 59, 0, LAST_LEVEL + 1, "has of a frame that was removed");
    }
    book_free(&b);
}

/* On a path of all levels a node that is malformed: no number for a frame that comes to it, also where this is held above it; for
 * the others the same as before. */
static void check_malformed(uint64_t word, uint64_t value) {
    struct book b;
    uint64_t node = 0, next = 1, level, other;
    book_make_deep(&b, EDITION_2);
    for (level = 0; level <= LAST_LEVEL; level++) {
        size_t at = node_index(&b, node, word);
        uint64_t before = b.image[at];
        b.image[at] = value;
        refuse(&b, REEL, 0, REELBOOK_MALFORMED, "has of a frame in the root");
        refuse(&b, REEL, UINT64_C(31) << 59, REELBOOK_MALFORMED, "has of a frame at the last level");
        for (other = 0; other < LAST_LEVEL; other++) {
            if (other < level) {
                expect(&b, frame_to(other, 1), 0, other + 2, "has beside a malformed node");
            } else {
                refuse(&b, REEL, frame_to(other, 1), REELBOOK_MALFORMED, "has through a malformed node");
            }
        }
        b.image[at] = before;
        node = next;
        next += fanout(level);
    }
    expect(&b, 0, 1, LAST_LEVEL + 1, "has of the path put right");
    book_free(&b);
}

/* One word of the header is another. */
static void refuse_with(struct book *b, size_t at, uint64_t value, uint64_t answer, const char *what) {
    uint64_t before = b->image[at];
    b->image[at] = value;
    refuse(b, REEL, 1, answer, what);
    refuse(b, REEL + 1, 1, answer, what);
    b->image[at] = before;
}

/* The reel has two nodes below its root and holds frame 1; of each refusal, with a reel that is there and one that is not. */
static void check_refusals(unsigned rule) {
    struct book b;
    book_format_as(&b, rule, REELS, NODES);
    equal(book_open(&b, REEL), REELBOOK_DONE, "open");
    book_add(&b, REEL, 0, 1, ROOM + 1);
    expect(&b, 1, 1, 2, "has before the refusals");
    refuse_with(&b, REELBOOK_SLOTS_AT, 0, REELBOOK_BAD_IMAGE, "has without slots");
    refuse_with(&b, REELBOOK_SLOTS_AT, REELBOOK_MAX_SLOTS + 1, REELBOOK_BAD_IMAGE, "has with too many slots");
    refuse_with(&b, REELBOOK_NODES_AT, 0, REELBOOK_BAD_IMAGE, "has without nodes");
    refuse_with(&b, REELBOOK_NODES_AT, NODES + 1, REELBOOK_BAD_IMAGE, "has with a node more than there are words");
    b.image_words--;
    refuse(&b, REEL, 1, REELBOOK_BAD_IMAGE, "has with an image one word short");
    b.image_words = 0;
    refuse(&b, REEL, 1, REELBOOK_BAD_IMAGE, "has without an image");
    b.image_words = reelbook_image_words(REELS, NODES);
    refuse_with(&b, REELBOOK_EDITION_AT, 0, REELBOOK_BAD_EDITION, "has in edition 0");
    refuse_with(&b, REELBOOK_EDITION_AT, 3, REELBOOK_BAD_EDITION, "has in edition 3");
    if (rule != EDITION_1) {
        refuse_with(&b, REELBOOK_OWN_AT, 2, REELBOOK_MALFORMED, "has with a table that is marked 2");
    }
    if (rule == OWN_TABLE) {
        refuse_with(&b, REELBOOK_TABLE_AT, 0, REELBOOK_MALFORMED, "has with a table that lacks some byte");
    }
    refuse(&b, REEL + 1, 1, REELBOOK_NO_REEL, "has in no reel");
    expect(&b, 1, 1, 2, "has after the refusals");
    equal(book_retire(&b, REEL), REELBOOK_DONE, "retire");
    refuse(&b, REEL, 1, REELBOOK_NO_REEL, "has in a reel that was retired");
    book_free(&b);
}

/* Three slots with one reel's number, the second of which has a tree of two levels: the first that is filled counts. */
static void check_slots(void) {
    struct book b;
    size_t slot, slots_at = REELBOOK_HEADER_WORDS;
    book_format(&b, REELS, NODES);
    for (slot = 0; slot < REELS; slot++) {
        equal(book_open(&b, REEL + slot), REELBOOK_DONE, "open");
    }
    book_add(&b, REEL + 1, 0, 1, ROOM + 1);
    for (slot = 0; slot < REELS; slot++) {
        b.image[slots_at + REELBOOK_SLOT_WORDS * slot + REELBOOK_SLOT_REEL] = REEL;
    }
    for (slot = 0; slot < REELS; slot++) {
        expect(&b, 1, slot == 1, slot == 1 ? 2 : 1, "has in the first filled slot of a reel");
        b.image[slots_at + REELBOOK_SLOT_WORDS * slot + REELBOOK_SLOT_ROOT] = 0;
    }
    refuse(&b, REEL, 1, REELBOOK_NO_REEL, "has in empty slots");
    book_free(&b);
}

/* The image may not be written, nor anything beside the two numbers. */
static void check_stores(uint64_t frame, size_t image_words, uint64_t answer, uint64_t yes, uint64_t nodes) {
    struct book b;
    struct lent image, first, second;
    book_make_deep(&b, EDITION_2);
    lend(&image, b.image_words);
    memcpy(image.words, b.image, b.image_words * sizeof *b.image);
    lent_read_only(&image);
    lend(&first, 1);
    lend(&second, 1);
    equal(reelbook_has(image.words, image_words, REEL, frame, first.words, second.words), answer, "has");
    equal(*first.words, yes, "yes");
    equal(*second.words, nodes, "nodes on a path");
    lent_back(&image);
    lent_back(&first);
    lent_back(&second);
    book_free(&b);
}

/* Of a frame that is held, one that is not, and the reel's others, each has this number. */
static void expect_all(struct book *b, uint64_t nodes, const char *what) {
    static const uint64_t frames[] = {0, 1, 63, 64, 1000, UINT64_MAX};
    size_t i;
    for (i = 0; i < sizeof frames / sizeof frames[0]; i++) {
        equal(book_has(b, REEL, frames[i]), REELBOOK_DONE, what);
        equal(b->nodes, nodes, what);
    }
}

/* Power fails after so many entries of the script of a claim, of which every store is kept; then recovery. The number of nodes
 * on a path afterwards. */
static uint64_t nodes_after(const struct book *from, uint64_t frame, uint64_t entries) {
    struct book b = *from;
    uint64_t at;
    b.image = zeroed(b.image_words);
    b.map = zeroed(b.map_words);
    memcpy(b.image, from->image, b.image_words * sizeof *b.image);
    memcpy(b.map, from->map, b.map_words * sizeof *b.map);
    equal(reelbook_claim(b.image, b.image_words, b.map, b.map_words, b.heads, b.script, REELBOOK_SCRIPT_WORDS, 0, REEL, frame,
                         &b.used, &b.left),
          REELBOOK_DONE, "claim");
    for (at = 0; at < 2 * entries && at < b.used; at += 2) {
        if (b.script[at] != REELBOOK_BARRIER) {
            b.image[b.script[at]] = b.script[at + 1];
        }
    }
    equal(book_recover(&b), REELBOOK_DONE, "recover");
    equal(book_has(&b, REEL, frame), REELBOOK_DONE, "has after a claim cut short");
    equal(b.yes, 0, "a frame whose claim was cut short");
    free(b.image);
    free(b.map);
    return b.nodes;
}

/* The script of the 64th has a store and a barrier. That of the 65th makes two children, five stores for each, links them after a
 * barrier, and passes another: paths have two nodes from its twelfth entry on. */
static void check_cuts(const struct book *b, uint64_t frame) {
    enum { LINKED = 12, ENTRIES = 15 };
    uint64_t entries;
    for (entries = 0; entries <= ENTRIES; entries++) {
        uint64_t nodes = frame < ROOM || entries < LINKED ? 1 : 2;
        equal(nodes_after(b, frame, entries), nodes, "nodes on a path after a claim cut short");
    }
}

/* Up to 64 frames held, claimed and filled a reel has one node, of claims that are abandoned or cut short too. */
static void check_up_to_64(struct book *b) {
    uint64_t frame;
    expect_all(b, 1, "has in a reel without frames");
    for (frame = 0; frame < ROOM; frame++) {
        if (frame == ROOM - 1) {
            check_cuts(b, frame);
        }
        equal(book_claim(b, 0, REEL, frame), REELBOOK_DONE, "claim");
        expect_all(b, 1, "has beside a claim");
        equal(book_fill(b, 0), REELBOOK_DONE, "fill");
        expect_all(b, 1, "has beside a frame that is filled");
        equal(book_abandon(b, 0), REELBOOK_DONE, "abandon");
        book_add(b, REEL, frame, 1, 1);
        expect_all(b, 1, "has in a reel of up to 64 frames");
    }
    equal(book_recover(b), REELBOOK_DONE, "recover");
    expect_all(b, 1, "has in a reel of 64 frames");
}

/* From the 65th on paths have two, though it is abandoned and frames go again, until the reel is retired (or tidied). */
static void check_from_65(struct book *b) {
    uint64_t frame;
    check_cuts(b, ROOM);
    equal(book_claim(b, 0, REEL, ROOM), REELBOOK_DONE, "claim of the 65th");
    expect_all(b, 2, "has beside the claim of the 65th");
    equal(book_abandon(b, 0), REELBOOK_DONE, "abandon");
    expect_all(b, 2, "has after the 65th was abandoned");
    for (frame = 1; frame < ROOM; frame++) {
        equal(book_remove(b, REEL, frame), REELBOOK_DONE, "remove");
    }
    equal(book_recover(b), REELBOOK_DONE, "recover");
    expect_all(b, 2, "has in a reel of one frame that had 65");
    equal(book_retire(b, REEL), REELBOOK_DONE, "retire");
    equal(book_open(b, REEL), REELBOOK_DONE, "open again");
    expect_all(b, 1, "has in a reel that was opened again");
}

static void check_small(unsigned rule) {
    struct book b;
    book_format_as(&b, rule, REELS, NODES);
    equal(book_open(&b, REEL), REELBOOK_DONE, "open");
    check_up_to_64(&b);
    check_from_65(&b);
    book_free(&b);
}

void check_lookups(void) {
    unsigned rule;
    lent_for("has");
    for (rule = EDITION_1; rule <= OWN_TABLE; rule++) {
        check_numbers(rule);
        check_refusals(rule);
        check_small(rule);
    }
    check_slots();
    check_malformed(REELBOOK_NODE_LEVEL, LAST_LEVEL + 1);
    check_malformed(REELBOOK_NODE_SIZE, 63);
    check_malformed(REELBOOK_NODE_NEXT, DEEP_NODES);
    check_stores(UINT64_C(31) << 59, reelbook_image_words(1, DEEP_NODES), REELBOOK_DONE, 1, LAST_LEVEL + 1);
    check_stores(2, reelbook_image_words(1, DEEP_NODES), REELBOOK_DONE, 0, 3);
    check_stores(2, reelbook_image_words(1, DEEP_NODES) - 1, REELBOOK_BAD_IMAGE, 0, 0);
}
