/* The reel book as a driver uses it: every script carried out, store by store, before the next call. */
#define _POSIX_C_SOURCE 200809L
#include "book.h"

#include "carry.h"

#include <fcntl.h>
#include <stdio.h>
#include <stdlib.h>
#include <unistd.h>

#if OWN_TABLE && (REELBOOK_VERSION_MAJOR < 4 || (defined EDITION && EDITION == 1))
#error "builds before 4.0 and images of edition 1 have no own tables"
#endif

static void refused(const char *operation, uint64_t answer) {
    char because[40];
    snprintf(because, sizeof because, "refused with %u", (unsigned)answer);
    fail(operation, because);
}

static void expect_done(const char *operation, uint64_t answer) {
    if (answer != REELBOOK_DONE)
        refused(operation, answer);
}

static void carry(struct book *b, size_t used) {
    if (carry_out(&b->medium, 0, b->script, used) != 0)
        fail("barrier", NULL);
}

static void pass_barrier_over_image(struct book *b) {
    if (medium_barrier_over(&b->medium, 0, b->image_words) != 0)
        fail("barrier", NULL);
}

/* The file is unlinked at once: the mapping keeps it. */
static void map_file(struct book *b, const char *path) {
    int fd = open(path, O_RDWR | O_CREAT | O_TRUNC, 0600);
    if (fd < 0)
        fail(path, NULL);
    if (posix_fallocate(fd, 0, (off_t)(b->image_words * sizeof(uint64_t))) != 0)
        fail(path, "no room for the image; MEMORY= and DISK= take other folders");
    if (medium_map(&b->medium, fd, b->image_words, 1, 0) != 0)
        fail(path, NULL);
    close(fd);
    unlink(path);
    b->medium.barrier = BARRIER_NONE;
}

static void open_reels(struct book *b) {
    uint64_t used;
    for (uint64_t reel = 0; reel < REELS; reel++) {
        expect_done("open", reelbook_open(b->medium.words, b->image_words, b->map, b->map_words, b->script, REELBOOK_SCRIPT_WORDS,
                                          reel, &used));
        carry(b, (size_t)used);
    }
}

/* An own table is the library's over again: with one, nothing else is different. */
static uint64_t format(struct book *b) {
#if REELBOOK_VERSION_MAJOR < 4
    return reelbook_format(b->medium.words, b->image_words, b->map, b->map_words, b->heads, REELS, NODES);
#else
    uint8_t table[REELBOOK_TABLE_BYTES];
    for (unsigned i = 0; i < sizeof table; i++)
        table[i] = (uint8_t)(167 * i + 13);
    return reelbook_format(b->medium.words, b->image_words, b->map, b->map_words, b->heads, table, OWN_TABLE ? sizeof table : 0,
                           REELS, NODES);
#endif
}

void *book_open(const struct column *column, const char *path) {
    struct book *b = allocate(1, sizeof *b);
    b->barrier = column->barrier;
    b->image_words = reelbook_image_words(REELS, NODES);
    b->map_words = reelbook_map_words(NODES);
    b->map = allocate(b->map_words, sizeof *b->map);
    b->scratch = allocate(b->map_words, sizeof *b->scratch);
    b->list = allocate(LIST_WORDS, sizeof *b->list);
    map_file(b, path);
    expect_done("format", format(b));
#ifdef EDITION
    b->medium.words[REELBOOK_EDITION_AT] = EDITION; /* an image without frames is one of either edition but for this */
#endif
    open_reels(b);
    return b;
}

size_t book_claim(struct book *b, const struct op *op) {
    uint64_t used;
    expect_done("claim", reelbook_claim(b->medium.words, b->image_words, b->map, b->map_words, b->heads, b->script,
                                        REELBOOK_SCRIPT_WORDS, 0, op->reel, op->frame, &used, &b->left));
    return (size_t)used;
}

size_t book_fill(struct book *b) {
    uint64_t used;
    expect_done("fill", reelbook_fill(b->medium.words, b->image_words, b->heads, b->script, REELBOOK_SCRIPT_WORDS, 0, &used));
    return (size_t)used;
}

size_t book_commit(struct book *b) {
    uint64_t used;
    expect_done("commit", reelbook_commit(b->medium.words, b->image_words, b->heads, b->script, REELBOOK_SCRIPT_WORDS, 0, &used));
    return (size_t)used;
}

size_t book_remove(struct book *b, const struct op *op) {
    uint64_t used;
    expect_done("remove", reelbook_remove(b->medium.words, b->image_words, b->heads, b->script, REELBOOK_SCRIPT_WORDS, op->reel,
                                          op->frame, &used));
    return (size_t)used;
}

static size_t insert(void *state, const struct op *ops, size_t count) {
    struct book *b = state;
    for (size_t i = 0; i < count; i++) {
        carry(b, book_claim(b, &ops[i]));
        carry(b, book_fill(b));
        carry(b, book_commit(b));
    }
    return count;
}

static size_t take_out(void *state, const struct op *ops, size_t count) {
    struct book *b = state;
    for (size_t i = 0; i < count; i++)
        carry(b, book_remove(b, &ops[i]));
    return count;
}

#if REELBOOK_VERSION_MAJOR < 5
#define PATH_NODES
#else
#define PATH_NODES , &b->nodes
#endif

static size_t look_up(void *state, const struct op *ops, size_t count) {
    struct book *b = state;
    size_t found = 0;
    uint64_t yes;
    for (size_t i = 0; i < count; i++) {
        expect_done("has", reelbook_has(b->medium.words, b->image_words, ops[i].reel, ops[i].frame, &yes PATH_NODES));
        found += (size_t)yes;
    }
    return found;
}

size_t book_list(void *state, const struct op *ops, size_t count) {
    struct book *b = state;
    size_t frames = 0;
    uint64_t listed;
    for (size_t i = 0; i < count; i++) {
        expect_done("list", reelbook_list(b->medium.words, b->image_words, b->scratch, b->map_words, b->list, LIST_WORDS,
                                          ops[i].reel, &listed));
        frames += (size_t)listed;
    }
    return frames;
}

static size_t recover(void *state, const struct op *ops, size_t count) {
    struct book *b = state;
    (void)count;
    expect_done("recover", reelbook_recover(b->medium.words, b->image_words, b->map, b->map_words, b->heads));
    pass_barrier_over_image(b);
    return look_up(b, ops, 1);
}

/* Without barriers up to the end. */
void book_load(void *state, const struct op *ops, size_t count) {
    struct book *b = state;
    insert(b, ops, count);
    b->medium.barrier = b->barrier;
    pass_barrier_over_image(b);
}

double book_bytes(void *state) {
    const struct book *b = state;
    size_t used = 0;
    for (size_t n = 0; n < NODES; n++)
        used += b->map[n / 64] >> n % 64 & 1;
    return (double)(reelbook_image_words(REELS, used) * sizeof(uint64_t));
}

uint64_t book_edition(const void *state) {
    const struct book *b = state;
    return b->medium.words[REELBOOK_EDITION_AT];
}

void book_close(void *state) {
    struct book *b = state;
    medium_unmap(&b->medium);
    free(b->map);
    free(b->scratch);
    free(b->list);
    free(b);
}

const struct store book_store = {
    .open = book_open,
    .load = book_load,
    .run = {[INSERT] = insert, [REMOVE] = take_out, [HIT] = look_up, [MISS] = look_up, [LIST] = book_list, [RECOVERY] = recover},
    .bytes = book_bytes,
    .close = book_close,
};
