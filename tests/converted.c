#include "converted.h"

#include <stdlib.h>
#include <string.h>

static uint64_t nodes_at(const uint64_t *image) {
    return REELBOOK_HEADER_WORDS + REELBOOK_SLOT_WORDS * image[REELBOOK_SLOTS_AT];
}

/* A node: next, set, level and size stay, locate becomes set; of each place the frame and its fingerprint where it is held. */
static void convert_node(uint64_t *to, const uint64_t *from, unsigned rule) {
    unsigned place;
    to[REELBOOK_NODE_NEXT] = from[REELBOOK_NODE_NEXT];
    to[REELBOOK_NODE_LOCATE] = to[REELBOOK_NODE_SET] = from[REELBOOK_NODE_SET];
    to[REELBOOK_NODE_LEVEL] = from[REELBOOK_NODE_LEVEL];
    to[REELBOOK_NODE_SIZE] = from[REELBOOK_NODE_SIZE];
    for (place = 0; place < 64; place++) {
        uint64_t frame = from[REELBOOK_NODE_FRAMES + place];
        if (from[REELBOOK_NODE_SET] >> place & 1) {
            to[REELBOOK_NODE_FRAMES + place] = frame;
            to[REELBOOK_NODE_FINGERPRINTS + place / 8] += (uint64_t)fingerprint(rule, frame) << 8 * (place % 8);
        }
    }
}

static void convert_tree(uint64_t *copy, const uint64_t *image, unsigned rule, uint64_t node, unsigned level) {
    size_t at = (size_t)(nodes_at(image) + REELBOOK_NODE_WORDS * node);
    uint64_t child, next = image[at + REELBOOK_NODE_NEXT];
    convert_node(copy + at, image + at, rule);
    for (child = 0; next != 0 && child < (level < 3 ? 2 : 4); child++) {
        convert_tree(copy, image, rule, next - 1 + child, level + 1);
    }
}

/* All words are 0 but those of the header, of filled slots, and of the nodes that are reached from these. */
uint64_t differs(const uint64_t *copy, const uint64_t *image, size_t words) {
    uint64_t *due = zeroed(words), slot, count = 0;
    size_t word;
    unsigned rule = image[REELBOOK_EDITION_AT] == REELBOOK_EDITION_1 ? EDITION_2 : EDITION_1;
    due[REELBOOK_EDITION_AT] = rule == EDITION_1 ? 1 : 2;
    due[REELBOOK_SLOTS_AT] = image[REELBOOK_SLOTS_AT];
    due[REELBOOK_NODES_AT] = image[REELBOOK_NODES_AT];
    for (slot = 0; slot < image[REELBOOK_SLOTS_AT]; slot++) {
        size_t at = (size_t)(REELBOOK_HEADER_WORDS + REELBOOK_SLOT_WORDS * slot);
        if (image[at + REELBOOK_SLOT_ROOT] != 0) {
            due[at + REELBOOK_SLOT_REEL] = image[at + REELBOOK_SLOT_REEL];
            due[at + REELBOOK_SLOT_ROOT] = image[at + REELBOOK_SLOT_ROOT];
            convert_tree(due, image, rule, image[at + REELBOOK_SLOT_ROOT] - 1, 0);
        }
    }
    for (word = 0; word < words; word++) {
        count += copy[word] != due[word];
    }
    free(due);
    return count;
}

/* Words 4 to 7 and 40 to 63, and 8 to 39 where there is no own table; in edition 1 word 3 is not read either. */
static void spoil_header(struct book *b, unsigned rule) {
    uint64_t word;
    for (word = 4; word < REELBOOK_HEADER_WORDS; word++) {
        if (rule != OWN_TABLE || word < REELBOOK_TABLE_AT || word >= REELBOOK_TABLE_AT + REELBOOK_TABLE_WORDS) {
            memset(&b->image[word], JUNK, sizeof *b->image);
        }
    }
    if (rule == EDITION_1) {
        b->image[REELBOOK_OWN_AT] = 1;
    }
}

void make_stale(struct book *b, unsigned rule) {
    uint64_t frame;
    book_format_as(b, rule, CONVERTED_REELS, CONVERTED_NODES);
    spoil_header(b, rule);
    equal(book_open(b, FIRST_REEL), REELBOOK_DONE, "open");
    book_add(b, FIRST_REEL, 0, 1, 150);
    equal(book_open(b, 8), REELBOOK_DONE, "open");
    book_add(b, 8, UINT64_C(1) << 40, 8, 300);
    equal(book_open(b, OTHER_REEL), REELBOOK_DONE, "open");
    book_add(b, OTHER_REEL, 5, UINT64_C(1) << 33, 20);
    equal(book_retire(b, 8), REELBOOK_DONE, "retire");
    for (frame = 3; frame < 150; frame += 7) {
        equal(book_remove(b, FIRST_REEL, frame), REELBOOK_DONE, "remove");
    }
    equal(book_claim(b, 0, FIRST_REEL, 1000), REELBOOK_DONE, "claim");
    equal(book_fill(b, 0), REELBOOK_DONE, "fill");
    equal(book_claim(b, 2, OTHER_REEL, UINT64_MAX), REELBOOK_DONE, "claim");
}
