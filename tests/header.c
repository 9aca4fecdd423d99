/* include/reelbook.h against the library: every constant by what the library does. Valid as C99 and as C++11. */
#include "book.h"
#include "convert.h"
#include "lookups.h"
#include "tidy.h"
#include "translate.h"

#include <stdio.h>
#include <stdlib.h>
#include <string.h>

enum { REELS = 3, NODES = 24 };

static void same_text(const char *found, const char *expected, const char *what) {
    checks++;
    if (strcmp(found, expected) != 0) {
        failures++;
        printf("%s: expected \"%s\", found \"%s\"\n", what, expected, found);
    }
}

static void same_header(const struct book *found, const struct book *expected, const char *what) {
    equal((uint64_t)memcmp(found->image, expected->image, REELBOOK_HEADER_WORDS * sizeof *found->image), 0, what);
}

/* The answer of a format with these lengths. */
static uint64_t format_answer(size_t image_words, size_t map_words, uint64_t slots, uint64_t nodes) {
    uint64_t heads[REELBOOK_HEADS_WORDS];
    uint64_t *image = junk(image_words), *map = junk(map_words);
    uint64_t answer = reelbook_format(image, image_words, map, map_words, heads, NULL, 0, slots, nodes);
    free(image);
    free(map);
    return answer;
}

static void check_sizes(void) {
    static const uint64_t sizes[][2] = {{1, 1}, {3, 63}, {3, 64}, {3, 65}, {200, 129}};
    size_t i;
    for (i = 0; i < sizeof sizes / sizeof sizes[0]; i++) {
        uint64_t slots = sizes[i][0], nodes = sizes[i][1];
        size_t image = reelbook_image_words(slots, nodes), map = reelbook_map_words(nodes);
        equal(format_answer(image, map, slots, nodes), REELBOOK_DONE, "format with reelbook_image_words and reelbook_map_words");
        equal(format_answer(image - 1, map, slots, nodes), REELBOOK_BAD_IMAGE, "format with an image one word short");
        equal(format_answer(image + 1, map, slots, nodes), REELBOOK_BAD_IMAGE, "format with an image one word long");
        equal(format_answer(image, map - 1, slots, nodes), REELBOOK_BAD_BUFFER, "format with a map one word short");
        equal(format_answer(image, map + 1, slots, nodes), REELBOOK_BAD_BUFFER, "format with a map one word long");
    }
}

static uint64_t format_exact(uint64_t slots, uint64_t nodes) {
    return format_answer(reelbook_image_words(slots, nodes), reelbook_map_words(nodes), slots, nodes);
}

static void check_maxima(void) {
    equal(format_exact(0, 1), REELBOOK_BAD_IMAGE, "format without slots");
    equal(format_exact(1, 0), REELBOOK_BAD_IMAGE, "format without nodes");
    equal(format_exact(REELBOOK_MAX_SLOTS, 1), REELBOOK_DONE, "format with REELBOOK_MAX_SLOTS");
    equal(format_exact(REELBOOK_MAX_SLOTS + 1, 1), REELBOOK_BAD_IMAGE, "format with one slot more");
    equal(format_exact(1, REELBOOK_MAX_NODES), REELBOOK_DONE, "format with REELBOOK_MAX_NODES");
    equal(format_exact(1, REELBOOK_MAX_NODES + 1), REELBOOK_BAD_IMAGE, "format with one node more");
}

static void check_header_words(void) {
    struct book b;
    uint64_t word;
    book_format(&b, REELS, NODES);
    equal(b.image[REELBOOK_EDITION_AT], REELBOOK_EDITION, "REELBOOK_EDITION_AT");
    equal(REELBOOK_EDITION, 2, "REELBOOK_EDITION");
    equal(b.image[REELBOOK_SLOTS_AT], REELS, "REELBOOK_SLOTS_AT");
    equal(b.image[REELBOOK_NODES_AT], NODES, "REELBOOK_NODES_AT");
    for (word = REELBOOK_NODES_AT + 1; word < REELBOOK_HEADER_WORDS; word++) {
        equal(b.image[word], 0, "the header's other words");
    }
    book_free(&b);
}

static uint64_t format_again(struct book *b, const uint8_t *table, size_t table_bytes) {
    return reelbook_format(b->image, b->image_words, b->map, b->map_words, b->heads, table, table_bytes, REELS, NODES);
}

/* A refused table: the image is as it was, and so are map and heads. */
static void check_given(struct book *b, const uint8_t *table, size_t table_bytes) {
    uint64_t *image = zeroed(b->image_words);
    memcpy(image, b->image, b->image_words * sizeof *image);
    b->map[0] = b->heads[0] = JUNK;
    equal(format_again(b, table, table_bytes), REELBOOK_BAD_TABLE, "REELBOOK_BAD_TABLE");
    b->map_words++;
    equal(format_again(b, table, table_bytes), REELBOOK_BAD_BUFFER, "a wrong length before REELBOOK_BAD_TABLE");
    b->map_words--;
    equal((uint64_t)memcmp(b->image, image, b->image_words * sizeof *image), 0, "the image after REELBOOK_BAD_TABLE");
    equal(b->map[0], JUNK, "the map after REELBOOK_BAD_TABLE");
    equal(b->heads[0], JUNK, "the heads after REELBOOK_BAD_TABLE");
    free(image);
}

/* A format with a table has it in its header, and one without has none, also over one that had. */
static void check_tables(void) {
    uint8_t table[2 * REELBOOK_TABLE_BYTES];
    struct book b, same;
    own_table(table);
    own_table(&table[REELBOOK_TABLE_BYTES]);
    book_format(&b, REELS, NODES);
    book_format(&same, REELS, NODES);
    book_go_by(&same, OWN_TABLE);
    equal(format_again(&b, table, REELBOOK_TABLE_BYTES), REELBOOK_DONE, "format with a table");
    same_header(&b, &same, "the header with a table");
    equal(b.image[REELBOOK_OWN_AT], 1, "REELBOOK_OWN_AT");
    equal(b.image[REELBOOK_TABLE_AT] & 0xffff, 7 + 256 * 36, "REELBOOK_TABLE_AT");
    equal(b.image[REELBOOK_TABLE_AT + REELBOOK_TABLE_WORDS - 1] >> 56, 234, "REELBOOK_TABLE_WORDS");
    equal(b.image[REELBOOK_TABLE_AT + REELBOOK_TABLE_WORDS], 0, "the word behind the table");
    check_given(&b, table, 1);
    check_given(&b, table, REELBOOK_TABLE_BYTES - 1);
    check_given(&b, table, REELBOOK_TABLE_BYTES + 1);
    check_given(&b, table, 2 * REELBOOK_TABLE_BYTES);
    table[REELBOOK_TABLE_BYTES - 1] = 0;
    check_given(&b, table, REELBOOK_TABLE_BYTES);
    book_go_by(&same, EDITION_2);
    equal(format_again(&b, table, 0), REELBOOK_DONE, "format with a table of length 0");
    same_header(&b, &same, "the header without a table");
    book_free(&b);
    book_free(&same);
}

/* Reel 7 has a branch-out of two, so that reel 9 has slot 2 and node 4; then frame 1005 gets place 5. */
static void make_tree(struct book *b) {
    book_format(b, REELS, NODES);
    equal(book_open(b, 7), REELBOOK_DONE, "open");
    book_add(b, 7, 0, 1, 65);
    equal(book_open(b, 8), REELBOOK_DONE, "open");
    equal(book_open(b, 9), REELBOOK_DONE, "open");
    book_add(b, 9, 1000, 1, 5);
}

static void check_records(void) {
    struct book b;
    uint64_t word;
    make_tree(&b);
    equal(book_claim(&b, 1, 9, 1005), REELBOOK_DONE, "claim");
    equal(head_word(&b, 1, REELBOOK_HEAD_STATE_AT), REELBOOK_CLAIMED, "REELBOOK_CLAIMED");
    equal(head_word(&b, 1, REELBOOK_HEAD_SLOT_AT), 2, "REELBOOK_HEAD_SLOT_AT");
    equal(head_word(&b, 1, REELBOOK_HEAD_NODE_AT), 4, "REELBOOK_HEAD_NODE_AT");
    equal(head_word(&b, 1, REELBOOK_HEAD_PLACE_AT), 5, "REELBOOK_HEAD_PLACE_AT");
    equal(head_word(&b, 1, REELBOOK_HEAD_FRAME_AT), 1005, "REELBOOK_HEAD_FRAME_AT");
    equal(book_fill(&b, 1), REELBOOK_DONE, "fill");
    equal(head_word(&b, 1, REELBOOK_HEAD_STATE_AT), REELBOOK_FILLED, "REELBOOK_FILLED");
    equal(book_commit(&b, 1), REELBOOK_DONE, "commit");
    equal(head_word(&b, 1, REELBOOK_HEAD_STATE_AT), REELBOOK_IDLE, "REELBOOK_IDLE");
    for (word = 0; word < REELBOOK_HEADS_WORDS; word++) {
        equal(b.heads[word], 0, "an idle record");
    }
    equal(book_claim(&b, REELBOOK_HEADS - 1, 9, 1), REELBOOK_DONE, "claim by the last of REELBOOK_HEADS");
    equal(book_claim(&b, REELBOOK_HEADS, 7, 1000), REELBOOK_BAD_HEAD, "claim by one head more");
    book_free(&b);
}

static void check_tree_words(void) {
    struct book b;
    make_tree(&b);
    equal(slot_word(&b, 0, REELBOOK_SLOT_REEL), 7, "REELBOOK_SLOT_REEL");
    equal(slot_word(&b, 0, REELBOOK_SLOT_ROOT), 1, "REELBOOK_SLOT_ROOT");
    equal(slot_word(&b, 2, REELBOOK_SLOT_REEL), 9, "REELBOOK_SLOT_REEL");
    equal(slot_word(&b, 2, REELBOOK_SLOT_ROOT), 5, "REELBOOK_SLOT_ROOT");
    equal(node_word(&b, 0, REELBOOK_NODE_NEXT), 2, "REELBOOK_NODE_NEXT");
    equal(node_word(&b, 0, REELBOOK_NODE_SIZE), 64, "REELBOOK_NODE_SIZE");
    equal(node_word(&b, 1, REELBOOK_NODE_LEVEL), 1, "REELBOOK_NODE_LEVEL");
    equal(node_word(&b, 4, REELBOOK_NODE_SIZE), 16, "REELBOOK_NODE_SIZE");
    equal(node_word(&b, 0, REELBOOK_NODE_FRAMES + 63), 63, "REELBOOK_NODE_FRAMES");
    equal(node_word(&b, 1, REELBOOK_NODE_FRAMES), 64, "REELBOOK_NODE_FRAMES");
    /* By the specification the fingerprint of frame 0 is 32 in edition 2; that of 1 is 225 by its rule. */
    equal(node_word(&b, 0, REELBOOK_NODE_FINGERPRINTS) & 0xffff, 32 + 256 * 225, "REELBOOK_NODE_FINGERPRINTS");
    equal(book_claim(&b, 0, 9, 2000), REELBOOK_DONE, "claim");
    equal(node_word(&b, 4, REELBOOK_NODE_LOCATE), 0x3f, "REELBOOK_NODE_LOCATE");
    equal(node_word(&b, 4, REELBOOK_NODE_SET), 0x1f, "REELBOOK_NODE_SET");
    book_free(&b);
}

static void check_script(void) {
    struct book b;
    uint64_t *shorter = junk(REELBOOK_SCRIPT_WORDS - 1);
    book_format(&b, REELS, NODES);
    equal(reelbook_open(b.image, b.image_words, b.map, b.map_words, shorter, REELBOOK_SCRIPT_WORDS - 1, 7, &b.used),
          REELBOOK_BAD_BUFFER, "open with a script one word short");
    equal(b.used, 0, "words of script after a refusal");
    equal(book_open(&b, 7), REELBOOK_DONE, "open with REELBOOK_SCRIPT_WORDS");
    equal(b.script[b.used - 2], REELBOOK_BARRIER, "REELBOOK_BARRIER");
    equal(b.script[b.used - 1], 0, "a barrier's value");
    equal(reelbook_apply(b.image, b.image_words, b.script, (size_t)b.used), REELBOOK_DONE, "apply");
    b.script[b.used - 1] = 1;
    equal(reelbook_apply(b.image, b.image_words, b.script, (size_t)b.used), REELBOOK_BAD_BUFFER, "apply: barrier with a value");
    /* Multiples of 8 agree in three bits and fill levels 0 to 3; the next one branches out to four children. */
    book_add(&b, 7, 0, 8, 256);
    equal(book_claim(&b, 0, 7, 8 * 256), REELBOOK_DONE, "claim with a branch-out of four");
    equal(b.used, REELBOOK_SCRIPT_WORDS, "the longest script");
    free(shorter);
    book_free(&b);
}

/* A root of 16, 32 and 64 places, then a child; and a place that was given back between others. */
static void check_left(void) {
    static const uint64_t sizes[] = {16, 32, 64};
    struct book b;
    uint64_t frame = 0, i;
    book_format(&b, REELS, NODES);
    equal(book_open(&b, 7), REELBOOK_DONE, "open");
    for (i = 0; i < 3; i++) {
        for (; frame < sizes[i]; frame++) {
            book_add(&b, 7, frame, 1, 1);
            equal(b.left, sizes[i] - 1 - frame, "places left in the root");
        }
    }
    book_add(&b, 7, 64, 1, 1);
    equal(b.left, 63, "places left after a branch-out");
    equal(book_remove(&b, 7, 5), REELBOOK_DONE, "remove");
    equal(book_remove(&b, 7, 9), REELBOOK_DONE, "remove");
    book_add(&b, 7, 66, 1, 1);
    equal(b.left, 1, "places left below one that is held");
    book_add(&b, 7, 68, 1, 1);
    equal(b.left, 0, "no place left");
    book_free(&b);
}

static void check_refusals_of_left(void) {
    struct book b;
    make_tree(&b);
    equal(book_claim(&b, 0, 7, 1), REELBOOK_FRAME_HELD, "claim of a held frame");
    equal(book_claim(&b, 0, 10, 1), REELBOOK_NO_REEL, "claim in no reel");
    equal(book_claim(&b, REELBOOK_HEADS, 7, 100), REELBOOK_BAD_HEAD, "claim by no head");
    b.map_words++;
    equal(book_claim(&b, 0, 7, 100), REELBOOK_BAD_BUFFER, "claim with a map one word long");
    b.map_words--;
    b.image[REELBOOK_EDITION_AT]++;
    equal(book_claim(&b, 0, 7, 100), REELBOOK_BAD_EDITION, "claim in edition 3");
    b.image[REELBOOK_EDITION_AT]--;
    b.image_words--;
    equal(book_claim(&b, 0, 7, 100), REELBOOK_BAD_IMAGE, "claim with an image one word short");
    b.image_words++;
    equal(book_claim(&b, 0, 7, 100), REELBOOK_DONE, "claim");
    book_free(&b);
}

static void check_refusals_of_open(void) {
    struct book b;
    book_format(&b, REELS, NODES);
    equal(book_open(&b, 7), REELBOOK_DONE, "open");
    equal(book_open(&b, 7), REELBOOK_ALREADY_OPEN, "REELBOOK_ALREADY_OPEN");
    equal(book_open(&b, 8), REELBOOK_DONE, "open");
    equal(book_open(&b, 9), REELBOOK_DONE, "open");
    equal(book_open(&b, 10), REELBOOK_NO_SLOT, "REELBOOK_NO_SLOT");
    equal(book_retire(&b, 9), REELBOOK_DONE, "retire");
    memset(b.map, 0xff, b.map_words * sizeof *b.map);
    equal(book_open(&b, 9), REELBOOK_NO_RUN, "REELBOOK_NO_RUN");
    book_free(&b);
}

static void check_refusals_of_heads(void) {
    struct book b;
    make_tree(&b);
    equal(book_claim(&b, 0, 10, 1), REELBOOK_NO_REEL, "REELBOOK_NO_REEL");
    equal(book_claim(&b, 0, 7, 1), REELBOOK_FRAME_HELD, "REELBOOK_FRAME_HELD");
    equal(book_fill(&b, 0), REELBOOK_WRONG_STATE, "REELBOOK_WRONG_STATE");
    equal(book_claim(&b, 0, 7, 100), REELBOOK_DONE, "claim");
    equal(book_claim(&b, 0, 8, 100), REELBOOK_WRONG_STATE, "REELBOOK_WRONG_STATE");
    equal(book_claim(&b, 1, 7, 2), REELBOOK_FRAME_HELD, "a held frame before REELBOOK_BUSY");
    equal(book_claim(&b, 1, 7, 102), REELBOOK_BUSY, "REELBOOK_BUSY for the node");
    equal(book_claim(&b, 1, 7, 101), REELBOOK_DONE, "claim in another node of the reel");
    equal(book_remove(&b, 7, 1), REELBOOK_BUSY, "REELBOOK_BUSY");
    equal(book_retire(&b, 7), REELBOOK_BUSY, "REELBOOK_BUSY");
    equal(book_abandon(&b, 0), REELBOOK_DONE, "abandon");
    equal(book_remove(&b, 7, 1), REELBOOK_BUSY, "REELBOOK_BUSY for one of two claims");
    equal(book_abandon(&b, 1), REELBOOK_DONE, "abandon");
    equal(book_abandon(&b, REELBOOK_HEADS), REELBOOK_BAD_HEAD, "REELBOOK_BAD_HEAD");
    book_free(&b);
}

static void check_refusals_of_frames(void) {
    struct book b;
    make_tree(&b);
    equal(book_remove(&b, 7, 65), REELBOOK_NOT_HELD, "REELBOOK_NOT_HELD");
    equal(book_remove(&b, 7, 64), REELBOOK_DONE, "remove");
    equal(book_list(&b, 63, 7), REELBOOK_LIST_SHORT, "REELBOOK_LIST_SHORT");
    equal(b.count, 0, "the count of a refused list");
    equal(book_list(&b, 64, 7), REELBOOK_DONE, "list");
    equal(b.count, 64, "the count of a list");
    equal(book_has(&b, 7, 63), REELBOOK_DONE, "has");
    equal(b.yes, 1, "yes of has");
    equal(book_has(&b, 7, 64), REELBOOK_DONE, "has");
    equal(b.yes, 0, "no of has");
    book_free(&b);
}

static void check_refusals_of_images(void) {
    struct book b;
    make_tree(&b);
    equal(book_recover(&b), REELBOOK_DONE, "recover");
    equal(book_list(&b, LIST_WORDS, 7), REELBOOK_DONE, "list");
    b.image[REELBOOK_NODES_AT]--;
    equal(book_list(&b, LIST_WORDS, 7), REELBOOK_BAD_IMAGE, "REELBOOK_BAD_IMAGE");
    b.image[REELBOOK_NODES_AT]++;
    b.map_words++;
    equal(book_list(&b, LIST_WORDS, 7), REELBOOK_BAD_BUFFER, "REELBOOK_BAD_BUFFER");
    b.map_words--;
    b.image[node_index(&b, 0, REELBOOK_NODE_LEVEL)] = 1;
    equal(book_list(&b, LIST_WORDS, 7), REELBOOK_MALFORMED, "REELBOOK_MALFORMED");
    equal(book_recover(&b), REELBOOK_MALFORMED, "REELBOOK_MALFORMED");
    book_free(&b);
}

/* A reel with three frames, of which two differ in the upper bytes alone. A rule has its fingerprints and is read by them; by
 * another the frames are not held and the image is not sound. No operation changes the header. */
static void check_rule(unsigned rule, uint64_t prints, unsigned other) {
    static const uint64_t frames[] = {0, 1, UINT64_C(1) << 32};
    struct book b, same;
    size_t i;
    book_format_as(&b, rule, REELS, NODES);
    book_format(&same, REELS, NODES);
    book_go_by(&same, rule);
    equal(book_open(&b, 7), REELBOOK_DONE, "open");
    for (i = 0; i < 3; i++) {
        book_add(&b, 7, frames[i], 0, 1);
        equal(book_claim(&b, 0, 7, frames[i]), REELBOOK_FRAME_HELD, "claim of a frame held by this rule");
    }
    equal(node_word(&b, 0, REELBOOK_NODE_FINGERPRINTS) & 0xffffff, prints, "fingerprints by this rule");
    equal(book_recover(&b), REELBOOK_DONE, "recover by this rule");
    same_header(&b, &same, "the header after a recovery");
    book_go_by(&b, other);
    equal(book_recover(&b), REELBOOK_MALFORMED, "recover by another rule");
    for (i = 0; i < 3; i++) {
        equal(book_has(&b, 7, frames[i]), REELBOOK_DONE, "has by another rule");
        equal(b.yes, 0, "no of has by another rule");
        equal(book_remove(&b, 7, frames[i]), REELBOOK_NOT_HELD, "remove by another rule");
    }
    book_go_by(&b, rule);
    for (i = 0; i < 3; i++) {
        equal(book_remove(&b, 7, frames[i]), REELBOOK_DONE, "remove by this rule");
    }
    equal(book_retire(&b, 7), REELBOOK_DONE, "retire by this rule");
    same_header(&b, &same, "the header after all operations");
    book_free(&b);
    book_free(&same);
}

/* Every function that reads the image refuses it; Apply reads neither edition nor table. The reel is one that is there or not. */
static void check_refused(struct book *b, uint64_t reel, uint64_t answer, const char *what) {
    equal(book_recover(b), answer, what);
    equal(book_open(b, reel), answer, what);
    equal(book_claim(b, 0, reel, 100), answer, what);
    equal(book_fill(b, 0), answer, what);
    equal(book_commit(b, 0), answer, what);
    equal(book_abandon(b, REELBOOK_HEADS), answer, what);
    equal(book_remove(b, reel, 1), answer, what);
    equal(book_has(b, reel, 1), answer, what);
    equal(book_list(b, 0, reel), answer, what);
    equal(b->count, 0, "the count of a refused call");
    equal(book_retire(b, reel), answer, what);
    equal(book_tidy(b, reel), answer, what);
    b->script[0] = REELBOOK_BARRIER;
    b->script[1] = 0;
    equal(reelbook_apply(b->image, b->image_words, b->script, 2), REELBOOK_DONE, "apply on a refused image");
}

static void check_unknown_edition(uint64_t edition) {
    struct book b;
    make_tree(&b);
    b.image[REELBOOK_EDITION_AT] = edition;
    check_refused(&b, 7, REELBOOK_BAD_EDITION, "an unknown edition");
    check_refused(&b, 10, REELBOOK_BAD_EDITION, "an unknown edition");
    equal(b.image[REELBOOK_EDITION_AT], edition, "an unknown edition after refusals");
    book_free(&b);
}

/* In edition 2 a table that is not one: 4, just after 3; in edition 1 it is not read. Maps are clear then as after any 4. */
static void check_bad_table(uint64_t own, unsigned at, uint8_t entry) {
    struct book b, same;
    make_tree(&b);
    make_tree(&same);
    book_go_by(&b, OWN_TABLE);
    b.image[REELBOOK_OWN_AT] = own;
    b.image[REELBOOK_TABLE_AT + at / 8] &= ~(UINT64_C(255) << 8 * (at % 8));
    b.image[REELBOOK_TABLE_AT + at / 8] |= (uint64_t)entry << 8 * (at % 8);
    memcpy(same.image, b.image, b.image_words * sizeof *b.image);
    check_refused(&b, 7, REELBOOK_MALFORMED, "a bad table");
    check_refused(&b, 10, REELBOOK_MALFORMED, "a bad table");
    equal(b.map[0], 0, "the map after a recovery refused for its table");
    equal(b.scratch[0], 0, "the scratch map after a list refused for its table");
    b.map_words++;
    equal(book_list(&b, LIST_WORDS, 7), REELBOOK_BAD_BUFFER, "a wrong length before a bad table");
    b.map_words--;
    equal((uint64_t)memcmp(b.image, same.image, b.image_words * sizeof *b.image), 0, "a bad table after refusals");
    b.image[REELBOOK_EDITION_AT] = REELBOOK_EDITION_1;
    equal(book_list(&b, LIST_WORDS, 7), REELBOOK_DONE, "list in edition 1 with what is a bad table in edition 2");
    equal(format_again(&b, NULL, 0), REELBOOK_DONE, "format over a bad table");
    equal(book_open(&b, 7), REELBOOK_DONE, "open after a format over a bad table");
    book_free(&b);
    book_free(&same);
}

/* The entries 0 and 255 of the own table are 7 and 234. */
static void check_bad_tables(void) {
    check_bad_table(2, 0, 7);
    check_bad_table(UINT64_MAX, 0, 7);
    check_bad_table((UINT64_C(1) << 32) + 1, 0, 7);
    check_bad_table(UINT64_C(1) << 63, 0, 7);
    check_bad_table(1, 0, 8);
    check_bad_table(1, 255, 7);
}

static void check_format_over(uint64_t edition) {
    struct book b;
    book_format(&b, REELS, NODES);
    b.image[REELBOOK_EDITION_AT] = edition;
    equal(format_again(&b, NULL, 0), REELBOOK_DONE, "format again");
    equal(b.image[REELBOOK_EDITION_AT], 2, "the edition after a format over another");
    book_free(&b);
}

static void check_editions(void) {
    static const uint64_t unknown[] = {0, 3, UINT64_MAX, (UINT64_C(1) << 32) + 1, (UINT64_C(1) << 32) + 2};
    size_t i;
    check_rule(EDITION_1, 144 + 256 * 113 + 65536 * 144, EDITION_2);
    check_rule(EDITION_2, 32 + 256 * 225 + 65536 * 1, EDITION_1);
    check_rule(EDITION_2, 32 + 256 * 225 + 65536 * 1, OWN_TABLE);
    check_rule(OWN_TABLE, 168 + 256 * 73 + 65536 * 121, EDITION_2);
    for (i = 0; i < sizeof unknown / sizeof unknown[0]; i++) {
        check_unknown_edition(unknown[i]);
        check_format_over(unknown[i]);
    }
    check_format_over(REELBOOK_EDITION_1);
}

static void check_version(void) {
    char version[64];
    equal(REELBOOK_VERSION_MAJOR, 5, "REELBOOK_VERSION_MAJOR");
    equal(REELBOOK_VERSION_MINOR, 2, "REELBOOK_VERSION_MINOR");
    equal(REELBOOK_VERSION_PATCH, 0, "REELBOOK_VERSION_PATCH");
    snprintf(version, sizeof version, "%d.%d.%d", REELBOOK_VERSION_MAJOR, REELBOOK_VERSION_MINOR, REELBOOK_VERSION_PATCH);
    same_text(REELBOOK_VERSION, version, "REELBOOK_VERSION");
}

/* By number, so that a name with another's number is found too. */
static void check_texts(void) {
    static const char *const texts[] = {
        "done", "the image's length or numbers are wrong", "the image's edition is neither 1 nor 2",
        "a buffer's length is wrong, or a script is none", "the tree or the image's own table is malformed", "no such reel",
        "the reel is open already", "no empty reel slot", "not enough adjacent free nodes", "held already", "not held",
        "no such head", "the head is in another state", "an open claim is in the way", "the list has too little room",
        "unknown answer", "the given table is not 256 bytes with each byte once", "an own table can't go to edition 1",
        "no empty group of nodes", "unknown answer"};
    uint64_t answer;
    equal(sizeof texts / sizeof texts[0], REELBOOK_NO_EMPTY_GROUP + 2, "a text for each answer, and one for any other");
    for (answer = 0; answer < sizeof texts / sizeof texts[0]; answer++) {
        same_text(reelbook_answer_text(answer), texts[answer], "reelbook_answer_text");
    }
    same_text(reelbook_answer_text(UINT64_MAX), "unknown answer", "reelbook_answer_text of no answer");
    same_text(reelbook_answer_text(UINT64_C(1) << 32), "unknown answer", "reelbook_answer_text of a number above 32 bits");
}

int main(void) {
    check_version();
    check_texts();
    check_sizes();
    check_maxima();
    check_header_words();
    check_tables();
    check_records();
    check_tree_words();
    check_script();
    check_left();
    check_refusals_of_left();
    check_refusals_of_open();
    check_refusals_of_heads();
    check_refusals_of_frames();
    check_refusals_of_images();
    check_editions();
    check_bad_tables();
    check_conversions();
    check_lookups();
    check_tidying();
    check_tidy_refusals();
    check_translations();
    printf("header: %u checks, %u failures\n", checks, failures);
    return failures != 0;
}
