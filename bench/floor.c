/* The floors: the traffic with memory that a row cannot do without, and nothing else.
 *
 * INSERT, REMOVE   the four or two stores of the operation, known beforehand, each followed by its barrier
 * HIT, MISS        the next word of each node on the frame's path, one load waiting for the other; roots are known beforehand
 * LIST             a copy of the reel's frames
 * RECOVERY         all words in use, read once
 *
 * A shadow of the book, without barriers, does every batch first and tells its stores. Those of a scale-up or branch-out are made
 * on the floor's image before the batch is timed. So that image goes through the same contents as the book's, and each store
 * meets the same line in both. */
#include "book.h"

#include <stdlib.h>
#include <string.h>

enum { INSERT_STORES = 4, REMOVE_STORES = 2 };

struct known_store {
    size_t index;
    uint64_t value;
};

struct floor {
    struct book *image;  /* what is timed */
    struct book *shadow; /* what knows */
    size_t roots[REELS];
    struct known_store *stores;
    size_t stores_room;
    uint64_t *frames; /* of all reels in the sequence of the last prepared batch */
    size_t frames_room;
    size_t lengths[REELS];
};

static void *open_floor(const struct column *column, const char *path) {
    struct floor *f = allocate(1, sizeof *f);
    f->image = book_open(column, path);
    f->shadow = book_open(column, path);
    f->shadow->barrier = BARRIER_NONE;
    return f;
}

static void load(void *state, const struct op *ops, size_t count) {
    struct floor *f = state;
    struct book *image = f->image;
    book_load(f->shadow, ops, count);
    memcpy(image->medium.words, f->shadow->medium.words, image->image_words * sizeof(uint64_t));
    book_load(image, NULL, 0); /* nothing more, but the barriers start */
    const uint64_t *slot = image->medium.words + REELBOOK_HEADER_WORDS;
    for (size_t s = 0; s < REELS; s++, slot += REELBOOK_SLOT_WORDS)
        f->roots[slot[REELBOOK_SLOT_REEL]] = (size_t)slot[REELBOOK_SLOT_ROOT] - 1;
}

/* Carries the shadow's script out. Its last `kept` stores are kept to be timed, those before are made on the image at once. */
static void take_script(struct floor *f, size_t used, struct known_store **next, size_t kept) {
    const uint64_t *script = f->shadow->script;
    size_t left = 0;
    for (size_t at = 0; at < used; at += 2)
        left += script[at] != REELBOOK_BARRIER;
    for (size_t at = 0; at < used; at += 2) {
        if (script[at] == REELBOOK_BARRIER)
            continue;
        f->shadow->medium.words[script[at]] = script[at + 1];
        if (left-- > kept)
            f->image->medium.words[script[at]] = script[at + 1];
        else
            *(*next)++ = (struct known_store){(size_t)script[at], script[at + 1]};
    }
}

static void prepare_insert(struct floor *f, const struct op *ops, size_t count) {
    struct known_store *next = f->stores;
    for (size_t i = 0; i < count; i++) {
        take_script(f, book_claim(f->shadow, &ops[i]), &next, 1);
        take_script(f, book_fill(f->shadow), &next, 2);
        take_script(f, book_commit(f->shadow), &next, 1);
    }
}

static void prepare_remove(struct floor *f, const struct op *ops, size_t count) {
    struct known_store *next = f->stores;
    for (size_t i = 0; i < count; i++)
        take_script(f, book_remove(f->shadow, &ops[i]), &next, REMOVE_STORES);
}

/* The reels of the batch, which follow each other, then all others: what is to be copied is no warmer than a book's nodes. */
static void prepare_list(struct floor *f, const struct op *ops) {
    size_t at = 0;
    for (size_t i = 0; i < REELS; i++) {
        struct op reel = {(ops[0].reel + i) % REELS, 0};
        f->lengths[i] = book_list(f->shadow, &reel, 1);
        if (at + f->lengths[i] > f->frames_room) {
            f->frames_room = 2 * (at + f->lengths[i]);
            f->frames = realloc(f->frames, f->frames_room * sizeof *f->frames);
            if (!f->frames)
                fail("memory", NULL);
        }
        memcpy(f->frames + at, f->shadow->list, f->lengths[i] * sizeof *f->frames);
        at += f->lengths[i];
    }
}

static void prepare(void *state, enum row row, const struct op *ops, size_t count) {
    struct floor *f = state;
    if (count * INSERT_STORES > f->stores_room) {
        free(f->stores);
        f->stores_room = count * INSERT_STORES;
        f->stores = allocate(f->stores_room, sizeof *f->stores);
    }
    if (row == INSERT)
        prepare_insert(f, ops, count);
    else if (row == REMOVE)
        prepare_remove(f, ops, count);
    else if (row == LIST)
        prepare_list(f, ops);
}

static void store_known(struct floor *f, size_t count) {
    struct medium *m = &f->image->medium;
    for (size_t i = 0; i < count; i++) {
        medium_store(m, f->stores[i].index, f->stores[i].value);
        if (medium_barrier(m) != 0)
            fail("barrier", NULL);
    }
}

static size_t insert(void *state, const struct op *ops, size_t count) {
    (void)ops;
    store_known(state, count * INSERT_STORES);
    return count;
}

static size_t take_out(void *state, const struct op *ops, size_t count) {
    (void)ops;
    store_known(state, count * REMOVE_STORES);
    return count;
}

static size_t child(uint64_t frame, unsigned level) {
    return level < 3 ? frame >> level & 1 : frame >> (2 * level - 3) & 3;
}

static size_t walk_paths(void *state, const struct op *ops, size_t count) {
    const struct floor *f = state;
    const uint64_t *nodes = f->image->medium.words + reelbook_image_words(REELS, 0);
    size_t ended = 0;
    for (size_t i = 0; i < count; i++) {
        size_t node = f->roots[ops[i].reel];
        uint64_t next;
        for (unsigned level = 0; (next = nodes[node * REELBOOK_NODE_WORDS + REELBOOK_NODE_NEXT]) != 0; level++)
            node = (size_t)next - 1 + child(ops[i].frame, level);
        ended += node < NODES;
    }
    return ended;
}

static size_t copy_lists(void *state, const struct op *ops, size_t count) {
    struct floor *f = state;
    size_t at = 0;
    (void)ops;
    for (size_t i = 0; i < count; i++) {
        memcpy(f->image->list, f->frames + at, f->lengths[i] * sizeof *f->frames);
        at += f->lengths[i];
    }
    return at;
}

static size_t read_words(void *state, const struct op *ops, size_t count) {
    const struct floor *f = state;
    const uint64_t *image = f->image->medium.words, *nodes = image + reelbook_image_words(REELS, 0);
    uint64_t sum = 0;
    (void)ops, (void)count;
    for (const uint64_t *word = image; word < nodes; word++)
        sum += *word;
    for (size_t n = 0; n < NODES; n++)
        if (f->shadow->map[n / 64] >> n % 64 & 1)
            for (size_t at = 0; at < REELBOOK_NODE_WORDS; at++)
                sum += nodes[n * REELBOOK_NODE_WORDS + at];
    volatile uint64_t kept = sum; /* so that the loads are made */
    (void)kept;
    return 1;
}

static double bytes(void *state) {
    struct floor *f = state;
    return book_bytes(f->shadow);
}

static void close_floor(void *state) {
    struct floor *f = state;
    book_close(f->image);
    book_close(f->shadow);
    free(f->stores);
    free(f->frames);
    free(f);
}

const struct store floor_store = {
    .open = open_floor,
    .load = load,
    .prepare = prepare,
    .run = {[INSERT] = insert, [REMOVE] = take_out, [HIT] = walk_paths, [MISS] = walk_paths, [LIST] = copy_lists,
            [RECOVERY] = read_words},
    .bytes = bytes,
    .close = close_floor,
};
