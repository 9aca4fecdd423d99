/* Convert against the specification: every word that it writes, the sequence of its refusals, what each of these leaves, and the
 * work that goes on in both images. All that it is lent is between pages that may not be touched; the image is read-only, and so
 * is whatever a refusal may not store to. Valid as C99 and as C++11. */
#include "convert.h"

#include <stdlib.h>
#include <string.h>

#include "converted.h"
#include "lent.h"

enum { DAMAGES = 4000 /* for each rule */ };

/* What a call is lent: the image with these words, the others with junk. */
struct call {
    struct lent image, copy, scratch;
};

static void lend_call(struct call *c, const uint64_t *image, size_t image_words, size_t copy_words, size_t scratch_words) {
    lend(&c->image, image_words);
    lend(&c->copy, copy_words);
    lend(&c->scratch, scratch_words);
    if (image_words > 0) {
        memcpy(c->image.words, image, image_words * sizeof *image);
    }
    lent_read_only(&c->image);
}

static uint64_t call_convert(const struct call *c) {
    return reelbook_convert(c->image.words, c->image.count, c->copy.words, c->copy.count, c->scratch.words, c->scratch.count);
}

static void call_back(struct call *c) {
    lent_back(&c->image);
    lent_back(&c->copy);
    lent_back(&c->scratch);
}

static uint64_t not_zero(const struct lent *l) {
    uint64_t count = 0;
    size_t word;
    for (word = 0; word < l->count; word++) {
        count += l->words[word] != 0;
    }
    return count;
}

/* Calls, and looks at everything that was lent. A refusal may not store to the copy; 1, 2 and 3 to the scratch map neither. */
static void check_call(struct call *c, uint64_t due, const char *what) {
    lent_for(what);
    if (due != REELBOOK_DONE) {
        lent_read_only(&c->copy);
    }
    if (due == REELBOOK_BAD_IMAGE || due == REELBOOK_BAD_EDITION || due == REELBOOK_BAD_BUFFER) {
        lent_read_only(&c->scratch);
        equal(call_convert(c), due, what);
    } else {
        equal(call_convert(c), due, what);
        equal(not_zero(&c->scratch), 0, "words of the scratch map that are not 0");
    }
    if (due == REELBOOK_DONE) {
        equal(differs(c->copy.words, c->image.words, c->image.count), 0, what);
    }
}

/* Has a book's image converted, over junk. The copy is the caller's to free. */
static uint64_t *converted(const struct book *b) {
    struct call c;
    uint64_t *copy = zeroed(b->image_words);
    lend_call(&c, b->image, b->image_words, b->image_words, b->map_words);
    check_call(&c, REELBOOK_DONE, "convert");
    memcpy(copy, c.copy.words, b->image_words * sizeof *copy);
    call_back(&c);
    return copy;
}

/* A book of the copy, as after power-up: nothing is known but the image. */
static void make_converted(struct book *b, const struct book *from) {
    memset(b, JUNK, sizeof *b);
    b->image_words = from->image_words;
    b->map_words = from->map_words;
    b->image = converted(from);
    b->map = junk(b->map_words);
    b->scratch = junk(b->map_words);
}

static void same_words(const uint64_t *found, const uint64_t *expected, size_t words, const char *what) {
    equal((uint64_t)memcmp(found, expected, words * sizeof *found), 0, what);
}

/* Every reel's list, its sequence too. */
static void same_lists(struct book *found, struct book *expected) {
    static const uint64_t reels[] = {FIRST_REEL, OTHER_REEL};
    size_t i;
    for (i = 0; i < 2; i++) {
        equal(book_list(expected, LIST_WORDS, reels[i]), REELBOOK_DONE, "list");
        equal(book_list(found, LIST_WORDS, reels[i]), REELBOOK_DONE, "list of a converted reel");
        equal(found->count, expected->count, "the count of a converted reel");
        same_words(found->list, expected->list, (size_t)expected->count, "the list of a converted reel");
    }
    equal(book_list(found, LIST_WORDS, 8), REELBOOK_NO_REEL, "list of a reel that was retired");
}

/* Recover takes the copy, mends nothing, and finds the nodes that the book has. */
static void start_on(struct book *copy, const struct book *recovered) {
    uint64_t *before = zeroed(copy->image_words);
    memcpy(before, copy->image, copy->image_words * sizeof *before);
    equal(book_recover(copy), REELBOOK_DONE, "recover of the copy");
    same_words(copy->image, before, copy->image_words, "the copy after recovery");
    same_words(copy->map, recovered->map, copy->map_words, "the copy's map");
    free(before);
}

/* A book goes on: frames come and go, nodes are taken and given back, and what it has is sound. */
static void work_on(struct book *b) {
    book_add(b, FIRST_REEL, UINT64_C(3) << 60, 1, 60);
    equal(book_claim(b, 0, FIRST_REEL, 149), REELBOOK_FRAME_HELD, "claim of a frame that was converted");
    equal(book_remove(b, FIRST_REEL, 149), REELBOOK_DONE, "remove of a frame that was converted");
    equal(book_open(b, 8), REELBOOK_DONE, "open");
    book_add(b, 8, 0, 8, 70);
    equal(book_retire(b, OTHER_REEL), REELBOOK_DONE, "retire of a reel that was converted");
    equal(book_recover(b), REELBOOK_DONE, "recover after work");
}

/* There, back, and there again, with work on each; the claims of the old book can still be committed. */
static void check_there_and_back(unsigned rule) {
    struct book old, recovered, there, back, again;
    make_stale(&old, rule);
    make_stale(&recovered, rule);
    equal(book_recover(&recovered), REELBOOK_DONE, "recover of the book");
    make_converted(&there, &old);
    make_converted(&back, &there);
    make_converted(&again, &back);
    same_words(again.image, there.image, there.image_words, "there, back and there again");
    equal(back.image[REELBOOK_EDITION_AT], old.image[REELBOOK_EDITION_AT], "the edition there and back");
    start_on(&there, &recovered);
    start_on(&back, &recovered);
    same_lists(&there, &old);
    same_lists(&back, &old);
    work_on(&there);
    work_on(&back);
    equal(book_commit(&old, 0), REELBOOK_DONE, "commit in the old book");
    equal(book_abandon(&old, 2), REELBOOK_DONE, "abandon in the old book");
    work_on(&old);
    book_free(&old);
    book_free(&recovered);
    book_free(&there);
    book_free(&back);
    book_free(&again);
}

/* What is wrong with a call, in the sequence in which it is refused, each in several variants. */
enum { IMAGE_LENGTH = 1, COPY_LENGTH = 2, EDITION = 4, SCRATCH_LENGTH = 8, UNSOUND = 16, OWN = 32, ALL = 63, VARIANTS = 6 };

static uint64_t answer_due(unsigned faults) {
    return faults & (IMAGE_LENGTH | COPY_LENGTH) ? REELBOOK_BAD_IMAGE :
           faults & EDITION                      ? REELBOOK_BAD_EDITION :
           faults & SCRATCH_LENGTH               ? REELBOOK_BAD_BUFFER :
           faults & UNSOUND                      ? REELBOOK_MALFORMED :
           faults & OWN                          ? REELBOOK_HAS_OWN_TABLE :
                                                   REELBOOK_DONE;
}

/* Place 0 of a child of the first reel's root gets another frame, with its fingerprint. */
static void put_frame(struct book *b, unsigned rule, uint64_t frame) {
    uint64_t *prints = &b->image[node_index(b, 1, REELBOOK_NODE_FINGERPRINTS)];
    b->image[node_index(b, 1, REELBOOK_NODE_FRAMES)] = frame;
    *prints = (*prints & ~UINT64_C(255)) | fingerprint(rule, frame);
}

/* The child has even frames; the root holds frame 0. In edition 1 no table is read. */
static void make_unsound(struct book *b, unsigned rule, unsigned variant) {
    uint64_t *last_slot = &b->image[REELBOOK_HEADER_WORDS + REELBOOK_SLOT_WORDS * (CONVERTED_REELS - 1)];
    if (variant == 0 && rule == OWN_TABLE) {
        b->image[REELBOOK_TABLE_AT] ^= 1;
    } else if (variant == 0 && rule == EDITION_2) {
        b->image[REELBOOK_OWN_AT] = 2;
    } else if (variant == 1) {
        b->image[node_index(b, 0, REELBOOK_NODE_FINGERPRINTS)] ^= 1;
    } else if (variant == 2) {
        put_frame(b, rule, 2001);
    } else if (variant == 3) {
        put_frame(b, rule, 0);
    } else if (variant == 4) { /* a node reached twice */
        last_slot[REELBOOK_SLOT_ROOT] = slot_word(b, 0, REELBOOK_SLOT_ROOT);
    } else if (variant == 5) { /* a reel in two slots */
        b->image[REELBOOK_HEADER_WORDS + REELBOOK_SLOT_REEL] = OTHER_REEL;
    } else {
        b->image[node_index(b, 1, REELBOOK_NODE_LEVEL)]++;
    }
}

static void check_faults(unsigned faults, unsigned variant) {
    static const uint64_t editions[] = {0, 3, (UINT64_C(1) << 32) + 1};
    unsigned rule = faults & OWN ? OWN_TABLE : variant % 2 == 0 ? EDITION_2 : EDITION_1;
    struct book b;
    struct call c;
    uint64_t *longer;
    make_stale(&b, rule);
    if (faults & UNSOUND) {
        make_unsound(&b, rule, variant);
    }
    if (faults & EDITION) {
        b.image[REELBOOK_EDITION_AT] = editions[variant % 3];
    }
    longer = zeroed(b.image_words + 1);
    memcpy(longer, b.image, b.image_words * sizeof *longer);
    lend_call(&c, longer, lent_length(b.image_words, (faults & IMAGE_LENGTH) != 0, variant),
              lent_length(b.image_words, (faults & COPY_LENGTH) != 0, variant + 1),
              lent_length(b.map_words, (faults & SCRATCH_LENGTH) != 0, variant + 2));
    check_call(&c, answer_due(faults), "convert with every mixture of faults");
    call_back(&c);
    free(longer);
    book_free(&b);
}

/* Numbers that are none. With the last two the length would be right modulo 2^64. */
static void check_numbers(void) {
    enum { R = CONVERTED_REELS, N = CONVERTED_NODES };
    static const uint64_t wrong[][2] = {
        {0, N}, {R, 0}, {R + 1, N}, {R, N + 1}, {REELBOOK_MAX_SLOTS + 1, N}, {R, REELBOOK_MAX_NODES + 1},
        {R + (UINT64_C(1) << 63), N}, {R, N + (UINT64_C(1) << 60)}};
    size_t i;
    for (i = 0; i < sizeof wrong / sizeof wrong[0]; i++) {
        struct book b;
        struct call c;
        make_stale(&b, EDITION_2);
        b.image[REELBOOK_SLOTS_AT] = wrong[i][0];
        b.image[REELBOOK_NODES_AT] = wrong[i][1];
        lend_call(&c, b.image, b.image_words, b.image_words, b.map_words);
        check_call(&c, REELBOOK_BAD_IMAGE, "convert with wrong numbers");
        call_back(&c);
        book_free(&b);
    }
}

/* A word becomes another: one bit, a small number, or some other word of the image. Mostly it is one of the header, a slot or one
 * of the first nodes, which the reels have. */
static void damage(uint64_t *image, size_t words) {
    size_t at = (size_t)(drawn() % (drawn() % 4 == 0 ? words : reelbook_image_words(CONVERTED_REELS, 4)));
    switch (drawn() % 4) {
    case 0:
        image[at] ^= UINT64_C(1) << drawn() % 64;
        break;
    case 1:
        image[at] = drawn() % (CONVERTED_NODES + 2);
        break;
    default:
        image[at] = image[drawn() % words];
    }
}

/* Converts what Recover takes, and refuses all else as it does, but for an own table. */
static void check_damaged(unsigned rule) {
    struct book b, damaged;
    uint64_t due, done = 0, unsound = 0;
    int round;
    make_stale(&b, rule);
    make_stale(&damaged, rule);
    for (round = 0; round < DAMAGES; round++) {
        struct call c;
        memcpy(damaged.image, b.image, b.image_words * sizeof *b.image);
        damage(damaged.image, b.image_words);
        if (round % 3 == 0) {
            damage(damaged.image, b.image_words);
        }
        lend_call(&c, damaged.image, b.image_words, b.image_words, b.map_words);
        due = book_recover(&damaged);
        done += due == REELBOOK_DONE;
        unsound += due == REELBOOK_MALFORMED;
        if (due == REELBOOK_DONE && c.image.words[REELBOOK_EDITION_AT] == 2 && c.image.words[REELBOOK_OWN_AT] == 1) {
            due = REELBOOK_HAS_OWN_TABLE;
        }
        check_call(&c, due, "convert of a damaged image");
        call_back(&c);
    }
    equal(done > DAMAGES / 10 && unsound > DAMAGES / 10, 1, "images that are sound and that are not");
    book_free(&b);
    book_free(&damaged);
}

/* Pools that end within a word of the map and with it, the least book, and the largest, without reels. */
static void check_geometries(void) {
    static const uint64_t sizes[][2] = {{1, 1}, {3, 63}, {3, 64}, {3, 65}, {REELBOOK_MAX_SLOTS, 129}, {1, REELBOOK_MAX_NODES}};
    size_t i;
    for (i = 0; i < sizeof sizes / sizeof sizes[0]; i++) {
        struct book b, there;
        book_format_as(&b, i % 2 ? EDITION_1 : EDITION_2, sizes[i][0], sizes[i][1]);
        if (i < 5) {
            equal(book_open(&b, 7), REELBOOK_DONE, "open");
            book_add(&b, 7, 0, 1, sizes[i][1] == 1 ? 64 : 200);
        }
        make_converted(&there, &b);
        start_on(&there, &b);
        book_free(&b);
        book_free(&there);
    }
}

/* Down to the last level, which has no children; then with the four nodes that are left as a level below it. */
static void check_deep(unsigned rule) {
    struct book b, there;
    struct call c;
    uint64_t last = DEEP_NODES - 8, node;
    book_make_deep(&b, rule);
    make_converted(&there, &b);
    start_on(&there, &b);
    equal(node_word(&there, last, REELBOOK_NODE_LEVEL), LAST_LEVEL, "the last level");
    b.image[node_index(&b, last, REELBOOK_NODE_NEXT)] = DEEP_NODES - 4 + 1;
    for (node = DEEP_NODES - 4; node < DEEP_NODES; node++) {
        memset(&b.image[node_index(&b, node, 0)], 0, REELBOOK_NODE_WORDS * sizeof *b.image);
        b.image[node_index(&b, node, REELBOOK_NODE_LEVEL)] = LAST_LEVEL + 1;
        b.image[node_index(&b, node, REELBOOK_NODE_SIZE)] = 64;
    }
    lend_call(&c, b.image, b.image_words, b.image_words, b.map_words);
    check_call(&c, REELBOOK_MALFORMED, "convert with children of the last level");
    call_back(&c);
    book_free(&b);
    book_free(&there);
}

void check_conversions(void) {
    unsigned faults, variant;
    check_there_and_back(EDITION_1);
    check_there_and_back(EDITION_2);
    for (faults = 0; faults <= ALL; faults++) {
        for (variant = 0; variant < VARIANTS; variant++) {
            check_faults(faults, variant);
        }
    }
    check_numbers();
    check_geometries();
    check_deep(EDITION_1);
    check_deep(EDITION_2);
    check_damaged(EDITION_1);
    check_damaged(EDITION_2);
    check_damaged(OWN_TABLE);
}
