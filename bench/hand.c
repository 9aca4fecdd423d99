/* The reel book written by hand in C: the same image, the same walk with the same checks of a node, the same stores and barriers,
 * and nothing between them: no scripts, no answers, no heads, no buffers that a caller lends. Insert is claim, fill and commit
 * in one, and tells the places left as Claim does; a lookup tells the nodes on the path as Has does. What a plain program would
 * do is done so: a list copies place by place, and recovery looks every frame up from its root, which is how the paper says what
 * a sound image is. */
#include "book.h"

#include <stdlib.h>
#include <string.h>

enum { LEVELS = 32, PLACES_OF_NODE = 64 };

struct node {
    uint64_t next, locate, set, level, size, unread[3], prints[8], frames[PLACES_OF_NODE];
};

struct slot {
    uint64_t reel, root;
};

struct hand {
    struct book *book;    /* its image, map, scratch map, list; the library formats it, opens the reels, and is then left out */
    int bytes;            /* of a frame that its fingerprint folds: by the image's edition */
    const uint8_t *table; /* the image's own, or the library's */
    struct slot *slots;
    struct node *nodes;
    uint64_t left;    /* places left in the node of the last insert */
    uint64_t on_path; /* nodes on the path of the last lookup */
};

struct place {
    struct node *node; /* NULL: none */
    unsigned place;
};

struct path {
    struct place held, clear;
    struct node *last;
    unsigned level;
};

#define ENTRY(i) (uint8_t)(167 * (i) + 13)
#define ENTRIES4(i) ENTRY(i), ENTRY((i) + 1), ENTRY((i) + 2), ENTRY((i) + 3)
#define ENTRIES16(i) ENTRIES4(i), ENTRIES4((i) + 4), ENTRIES4((i) + 8), ENTRIES4((i) + 12)
#define ENTRIES64(i) ENTRIES16(i), ENTRIES16((i) + 16), ENTRIES16((i) + 32), ENTRIES16((i) + 48)
static const uint8_t library_table[256] = {ENTRIES64(0), ENTRIES64(64), ENTRIES64(128), ENTRIES64(192)};

static uint64_t fingerprint(const struct hand *h, uint64_t frame) {
    uint8_t print = 0;
    for (int k = 0; k < h->bytes; k++)
        print = h->table[print ^ (uint8_t)(frame >> 8 * k)];
    return print;
}

static void broken(void) {
    fail("C by hand", "a node is malformed");
}

static void store(struct hand *h, const uint64_t *word, uint64_t value) {
    medium_store(&h->book->medium, (size_t)(word - h->book->medium.words), value);
}

static void barrier(struct hand *h) {
    if (medium_barrier(&h->book->medium) != 0)
        fail("barrier", NULL);
}

static unsigned fanout(unsigned level) {
    return level < 3 ? 2 : level < LEVELS - 1 ? 4 : 0;
}

static unsigned child(uint64_t frame, unsigned level) {
    return (unsigned)(level < 3 ? frame >> level & 1 : frame >> (2 * level - 3) & 3);
}

static int above_size(uint64_t bitmap, uint64_t size) {
    return size < 64 && bitmap >> size != 0;
}

static int well_formed(const struct node *n, unsigned level) {
    if (n->level != level || (n->size != 64 && (level != 0 || (n->size != 16 && n->size != 32))))
        return 0;
    if (above_size(n->locate, n->size) || above_size(n->set, n->size))
        return 0;
    return n->next == 0 || (n->size == 64 && level < LEVELS - 1 && n->next - 1 < NODES && fanout(level) <= NODES - (n->next - 1));
}

/* The lowest place that holds the frame, or 64. Eight fingerprints at a time. */
static unsigned find_in(const struct node *n, uint64_t frame, uint64_t print) {
    static const uint64_t ones = 0x0101010101010101;
    for (unsigned j = 0; j < 8; j++) {
        uint64_t x = n->prints[j] ^ print * ones;
        for (uint64_t zero = (x - ones) & ~x & ones << 7; zero != 0; zero &= zero - 1) {
            unsigned place = 8 * j + (unsigned)__builtin_ctzll(zero) / 8;
            if (n->set >> place & 1 && n->frames[place] == frame && (n->prints[j] >> 8 * (place % 8) & 255) == print)
                return place;
        }
    }
    return 64;
}

static struct node *root_of(struct hand *h, uint64_t reel) {
    for (size_t s = 0; s < REELS; s++)
        if (h->slots[s].reel == reel && h->slots[s].root != 0)
            return h->nodes + h->slots[s].root - 1;
    fail("C by hand", "no such reel");
}

/* To the path's end, since a malformed node decides wherever it is. */
static struct path walk(struct hand *h, struct node *n, uint64_t frame) {
    struct path path = {.level = 0};
    uint64_t print = fingerprint(h, frame);
    for (;; path.level++) {
        if (!well_formed(n, path.level))
            broken();
        if (!path.held.node) {
            unsigned place = find_in(n, frame, print);
            if (place < 64)
                path.held = (struct place){n, place};
        }
        if (!path.clear.node && n->locate != (n->size < 64 ? ((uint64_t)1 << n->size) - 1 : UINT64_MAX))
            path.clear = (struct place){n, (unsigned)__builtin_ctzll(~n->locate)};
        if (n->next == 0)
            break;
        n = h->nodes + n->next - 1 + child(frame, path.level);
    }
    path.last = n;
    return path;
}

static size_t free_run(const struct book *b, unsigned count) {
    for (size_t length = 0, n = 0; n < NODES; n++) {
        if (n % 64 == 0 && b->map[n / 64] == UINT64_MAX) {
            length = 0;
            n += 63;
            continue;
        }
        length = b->map[n / 64] >> n % 64 & 1 ? 0 : length + 1;
        if (length == count)
            return n + 1 - count;
    }
    fail("C by hand", "no free run");
}

/* A node of its own for the frame: all children of the path's last node, made anew and linked. */
static struct place branch_out(struct hand *h, const struct path *path, uint64_t frame) {
    unsigned count = fanout(path->level);
    size_t start = free_run(h->book, count);
    for (size_t n = start; n < start + count; n++) {
        struct node *node = h->nodes + n;
        store(h, &node->next, 0);
        store(h, &node->locate, 0);
        store(h, &node->set, 0);
        store(h, &node->level, path->level + 1);
        store(h, &node->size, 64);
        h->book->map[n / 64] |= (uint64_t)1 << n % 64;
    }
    barrier(h);
    store(h, &path->last->next, start + 1);
    barrier(h);
    return (struct place){h->nodes + start + child(frame, path->level), 0};
}

static struct place take_place(struct hand *h, const struct path *path, uint64_t frame) {
    struct node *last = path->last;
    if (path->clear.node)
        return path->clear;
    if (last->size == 64)
        return branch_out(h, path, frame);
    unsigned place = (unsigned)last->size;
    store(h, &last->size, 2 * last->size);
    barrier(h);
    return (struct place){last, place};
}

static void insert_one(struct hand *h, const struct op *op) {
    struct path path = walk(h, root_of(h, op->reel), op->frame);
    if (path.held.node)
        fail("C by hand", "the frame is held");
    struct place to = take_place(h, &path, op->frame);
    struct node *n = to.node;
    uint64_t bit = (uint64_t)1 << to.place, shift = 8 * (to.place % 8), *prints = &n->prints[to.place / 8];
    store(h, &n->locate, n->locate | bit);
    h->left = n->size - (uint64_t)__builtin_popcountll(n->locate);
    barrier(h);
    store(h, &n->frames[to.place], op->frame);
    barrier(h);
    store(h, prints, (*prints & ~((uint64_t)255 << shift)) | fingerprint(h, op->frame) << shift);
    barrier(h);
    store(h, &n->set, n->set | bit);
    barrier(h);
}

static size_t insert(void *state, const struct op *ops, size_t count) {
    for (size_t i = 0; i < count; i++)
        insert_one(state, &ops[i]);
    return count;
}

static size_t take_out(void *state, const struct op *ops, size_t count) {
    struct hand *h = state;
    for (size_t i = 0; i < count; i++) {
        struct place held = walk(h, root_of(h, ops[i].reel), ops[i].frame).held;
        if (!held.node)
            fail("C by hand", "the frame is not held");
        uint64_t bit = (uint64_t)1 << held.place;
        store(h, &held.node->set, held.node->set & ~bit);
        barrier(h);
        store(h, &held.node->locate, held.node->locate & ~bit);
        barrier(h);
    }
    return count;
}

static size_t look_up(void *state, const struct op *ops, size_t count) {
    struct hand *h = state;
    size_t found = 0;
    for (size_t i = 0; i < count; i++) {
        struct path path = walk(h, root_of(h, ops[i].reel), ops[i].frame);
        found += path.held.node != NULL;
        h->on_path = path.level + 1;
    }
    return found;
}

/* Marks the nodes of a tree and counts its frames. */
static size_t check_tree(struct hand *h, uint64_t *marks, size_t n, unsigned level) {
    const struct node *node = h->nodes + n;
    uint64_t bit = (uint64_t)1 << n % 64;
    if (!well_formed(node, level) || marks[n / 64] & bit)
        broken();
    marks[n / 64] |= bit;
    size_t count = (size_t)__builtin_popcountll(node->set);
    for (unsigned c = 0; node->next != 0 && c < fanout(level); c++)
        count += check_tree(h, marks, node->next - 1 + c, level + 1);
    return count;
}

static size_t list_tree(struct hand *h, uint64_t *list, const struct node *node, unsigned level) {
    size_t count = 0;
    for (uint64_t left = node->set; left != 0; left &= left - 1)
        list[count++] = node->frames[__builtin_ctzll(left)];
    for (unsigned c = 0; node->next != 0 && c < fanout(level); c++)
        count += list_tree(h, list + count, h->nodes + node->next - 1 + c, level + 1);
    return count;
}

static size_t list(void *state, const struct op *ops, size_t count) {
    struct hand *h = state;
    struct book *b = h->book;
    size_t frames = 0;
    for (size_t i = 0; i < count; i++) {
        struct node *root = root_of(h, ops[i].reel);
        memset(b->scratch, 0, b->map_words * sizeof *b->scratch);
        if (check_tree(h, b->scratch, (size_t)(root - h->nodes), 0) > LIST_WORDS)
            fail("C by hand", "the list is short");
        frames += list_tree(h, b->list, root, 0);
        memset(b->scratch, 0, b->map_words * sizeof *b->scratch);
    }
    return frames;
}

/* The lookup from the root finds each frame of a tree where it is held. */
static void check_frames(struct hand *h, struct node *root, struct node *node, unsigned level) {
    for (uint64_t left = node->set; left != 0; left &= left - 1) {
        unsigned place = (unsigned)__builtin_ctzll(left);
        struct place held = walk(h, root, node->frames[place]).held;
        if (held.node != node || held.place != place)
            broken();
    }
    for (unsigned c = 0; node->next != 0 && c < fanout(level); c++)
        check_frames(h, root, h->nodes + node->next - 1 + c, level + 1);
}

static size_t recover(void *state, const struct op *ops, size_t count) {
    struct hand *h = state;
    struct book *b = h->book;
    (void)count;
    memset(b->map, 0, b->map_words * sizeof *b->map);
    for (size_t s = 0; s < REELS; s++) {
        struct node *root = root_of(h, h->slots[s].reel);
        if (h->slots[s].root != (size_t)(root - h->nodes) + 1)
            broken();
        check_tree(h, b->map, (size_t)(root - h->nodes), 0);
        check_frames(h, root, root, 0);
    }
    for (size_t n = 0; n < NODES; n++)
        if (b->map[n / 64] >> n % 64 & 1 && h->nodes[n].locate != h->nodes[n].set)
            h->nodes[n].locate = h->nodes[n].set;
    if (medium_barrier_over(&b->medium, 0, b->image_words) != 0)
        fail("barrier", NULL);
    return look_up(h, ops, 1);
}

static void *open_hand(const struct column *column, const char *path) {
    struct hand *h = allocate(1, sizeof *h);
    h->book = book_open(column, path);
    const uint64_t *words = h->book->medium.words;
    h->bytes = words[REELBOOK_EDITION_AT] == REELBOOK_EDITION_1 ? 4 : 8;
    h->table = words[REELBOOK_OWN_AT] == 1 ? (const uint8_t *)(words + REELBOOK_TABLE_AT) : library_table;
    h->slots = (struct slot *)(h->book->medium.words + REELBOOK_HEADER_WORDS);
    h->nodes = (struct node *)(h->book->medium.words + reelbook_image_words(REELS, 0));
    return h;
}

static void load(void *state, const struct op *ops, size_t count) {
    struct hand *h = state;
    insert(h, ops, count);
    book_load(h->book, NULL, 0); /* nothing more, but the barriers start */
}

static double bytes(void *state) {
    const struct hand *h = state;
    return book_bytes(h->book);
}

/* The library finds the image sound: it is the same image, fingerprints too. */
static void close_hand(void *state) {
    struct hand *h = state;
    struct book *b = h->book;
    if (reelbook_recover(b->medium.words, b->image_words, b->map, b->map_words, b->heads) != REELBOOK_DONE)
        fail("C by hand", "the image is not sound");
    book_close(b);
    free(h);
}

const struct store hand_store = {
    .open = open_hand,
    .load = load,
    .run = {[INSERT] = insert, [REMOVE] = take_out, [HIT] = look_up, [MISS] = look_up, [LIST] = list, [RECOVERY] = recover},
    .bytes = bytes,
    .close = close_hand,
};
