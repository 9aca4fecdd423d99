/* Recover's stores to the image, one by one, since no contract sees the middle of it: one to each locate word that differs, and
 * none to any other word, not even of the value that it has. And Convert's stores to the copy: some to each of its words, none
 * where it refuses, and none to the image, which is read-only, or outside what it is lent: a power failure in it finds the image
 * as it was. Linux on x86-64. */
#define _GNU_SOURCE
#include <stdio.h>

#if defined __linux__ && defined __x86_64__

#include "book.h"
#include "converted.h"
#include "lent.h"
#include "watch.h"

#include <stdlib.h>
#include <string.h>

enum { SLOTS = 3, NODES = 40, ROUNDS = 200 /* for each rule */ };

static struct book b;

/* Three reels, with branch-outs, in memory that can be watched. */
static void make_book(unsigned rule) {
    uint64_t *image;
    book_format_as(&b, rule, SLOTS, NODES);
    book_open(&b, 7);
    book_add(&b, 7, 0, 1, 150);
    book_open(&b, 8);
    book_add(&b, 8, 0, 8, 270);
    book_open(&b, 9);
    book_add(&b, 9, 5, 1, 20);
    image = watchable(b.image_words);
    memcpy(image, b.image, b.image_words * sizeof *image);
    free(b.image);
    b.image = image;
}

static int used(uint64_t node) {
    return (int)(b.map[node / 64] >> node % 64 & 1);
}

/* The locate words as a crash might leave them, and worse; `expected` gets the stores due to each word. */
static void draw_locate(unsigned *expected) {
    uint64_t node, size, set, locate;
    memset(expected, 0, b.image_words * sizeof *expected);
    for (node = 0; node < NODES; node++) {
        size = node_word(&b, node, REELBOOK_NODE_SIZE);
        set = node_word(&b, node, REELBOOK_NODE_SET);
        locate = drawn() % 3 == 0 ? set : drawn() & (size < 64 ? ((uint64_t)1 << size) - 1 : UINT64_MAX);
        if (used(node)) {
            b.image[node_index(&b, node, REELBOOK_NODE_LOCATE)] = locate;
            expected[node_index(&b, node, REELBOOK_NODE_LOCATE)] = locate != set;
        }
    }
}

static void recover_noting(uint64_t answer, const unsigned *expected, const char *what) {
    size_t word, wrong = 0;
    watch(b.image, b.image_words);
    equal(book_recover(&b), answer, what);
    unwatch();
    for (word = 0; word < b.image_words; word++) {
        wrong += noted(word) != expected[word];
    }
    equal(wrong, 0, "words not stored to as often as due");
    equal(noted_in_part(), 0, "stores to a part of a word");
}

/* A word that is one more than it should be, and makes the image malformed: no store at all. */
static void check_refused(size_t word, unsigned *expected) {
    b.image[word] += 1;
    draw_locate(expected);
    memset(expected, 0, b.image_words * sizeof *expected);
    recover_noting(REELBOOK_MALFORMED, expected, "recover of a malformed image");
    b.image[word] -= 1;
}

/* The level of a node, found early or late in the walk. */
static size_t level_word(void) {
    uint64_t node = drawn() % NODES;
    while (!used(node)) {
        node = (node + 1) % NODES;
    }
    return node_index(&b, node, REELBOOK_NODE_LEVEL);
}

/* What tells of an own table, or a word of it, in which another entry is then a second time. */
static size_t table_word(void) {
    uint64_t word = drawn() % (REELBOOK_TABLE_WORDS + 1);
    return (size_t)(word == REELBOOK_TABLE_WORDS ? REELBOOK_OWN_AT : REELBOOK_TABLE_AT + word);
}

static void check_recover(unsigned rule) {
    unsigned *expected;
    uint64_t *map;
    int round;
    make_book(rule);
    expected = (unsigned *)zeroed(b.image_words);
    map = zeroed(b.map_words);
    memcpy(map, b.map, b.map_words * sizeof *map);
    for (round = 0; round < ROUNDS; round++) {
        draw_locate(expected);
        recover_noting(REELBOOK_DONE, expected, "recover");
        memcpy(b.map, map, b.map_words * sizeof *map); /* cleared if it was refused by mistake */
        check_refused(rule == OWN_TABLE && round % 2 == 0 ? table_word() : level_word(), expected);
        memcpy(b.map, map, b.map_words * sizeof *map); /* cleared by the refusal */
    }
    watchable_free(b.image, b.image_words);
    b.image = NULL;
    book_free(&b);
    free(expected);
    free(map);
}

/* How many words of the copy have had a store, whole or in part. */
static size_t stored_to(size_t words) {
    size_t word, count = 0;
    for (word = 0; word < words; word++) {
        count += noted(word) != 0;
    }
    return count;
}

/* The image, which no store may reach, and the scratch map are between pages that may not be touched. */
static void convert_noting(const struct book *from, uint64_t answer, const char *what) {
    struct lent image, scratch;
    uint64_t *copy = watchable(from->image_words);
    lend(&image, from->image_words);
    memcpy(image.words, from->image, from->image_words * sizeof *copy);
    lent_read_only(&image);
    lend(&scratch, from->map_words);
    memset(copy, JUNK, from->image_words * sizeof *copy);
    watch(copy, from->image_words);
    equal(reelbook_convert(image.words, image.count, copy, from->image_words, scratch.words, scratch.count), answer, what);
    unwatch();
    equal(stored_to(from->image_words), answer == REELBOOK_DONE ? from->image_words : 0, "words of the copy stored to");
    if (answer == REELBOOK_DONE) {
        equal(differs(copy, from->image, from->image_words), 0, "words of the copy that are wrong");
    }
    lent_back(&image);
    lent_back(&scratch);
    watchable_free(copy, from->image_words);
}

static void check_convert(unsigned rule) {
    struct book stale;
    make_stale(&stale, rule);
    convert_noting(&stale, rule == OWN_TABLE ? REELBOOK_HAS_OWN_TABLE : REELBOOK_DONE, "convert");
    stale.image[node_index(&stale, 0, REELBOOK_NODE_FINGERPRINTS)] ^= 1;
    convert_noting(&stale, REELBOOK_MALFORMED, "convert of an image that is not sound");
    stale.image[REELBOOK_EDITION_AT] = 0;
    convert_noting(&stale, REELBOOK_BAD_EDITION, "convert of no edition");
    stale.map_words++;
    stale.image[REELBOOK_EDITION_AT] = REELBOOK_EDITION_2;
    convert_noting(&stale, REELBOOK_BAD_BUFFER, "convert with a scratch map one word long");
    stale.image[REELBOOK_NODES_AT]++;
    convert_noting(&stale, REELBOOK_BAD_IMAGE, "convert with a wrong number of nodes");
    book_free(&stale);
}

int main(void) {
    unsigned rule;
    for (rule = EDITION_1; rule <= OWN_TABLE; rule++) {
        check_recover(rule);
        check_convert(rule);
    }
    printf("stores: %u checks, %u failures\n", checks, failures);
    return failures != 0;
}

#else

int main(void) {
    puts("skipped: Recover's and Convert's stores one by one, because they are watched by a way of Linux on x86-64");
    return 0;
}

#endif
