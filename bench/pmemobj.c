/* PMDK's libpmemobj: for each reel a hash table of its frames, open addressing with a bounded probe. A transaction for every
 * insert and remove, with one snapshot, of the entry that changes. */
#include "bench.h"

#include <libpmemobj/base.h>
#include <libpmemobj/pool_base.h>
#include <libpmemobj/tx_base.h>
#include <stdio.h>
#include <stdlib.h>
#include <string.h>

enum { POOL_BYTES = 128 << 20, PROBE = 32, FIRST_ROOM = 64, TABLE_TYPE = 1 };

enum state { EMPTY, HELD, REMOVED };

struct entry {
    uint64_t frame;
    uint64_t state;
};

struct table {
    uint64_t room; /* a power of two */
    uint64_t unused;
    struct entry entries[];
};

struct root {
    PMEMoid tables[REELS];
};

struct pmemobj {
    PMEMobjpool *pool;
    struct root *root;
    uint64_t *list;
    char path[];
};

static void check(int failed) {
    if (failed)
        fail("libpmemobj", pmemobj_errormsg());
}

static void begin(struct pmemobj *p) {
    check(pmemobj_tx_begin(p->pool, NULL, TX_PARAM_NONE));
}

static void commit(void) {
    pmemobj_tx_commit();
    check(pmemobj_tx_end());
}

static void find_root(struct pmemobj *p) {
    check(p->pool == NULL);
    p->root = pmemobj_direct(pmemobj_root(p->pool, sizeof *p->root));
    check(p->root == NULL);
}

static size_t table_bytes(uint64_t room) {
    return sizeof(struct table) + (size_t)room * sizeof(struct entry);
}

static struct table *table_of(const struct pmemobj *p, uint64_t reel) {
    return pmemobj_direct(p->root->tables[reel]);
}

/* A new table in the running transaction. */
static struct table *new_table(uint64_t room, PMEMoid *id) {
    *id = pmemobj_tx_zalloc(table_bytes(room), TABLE_TYPE);
    check(OID_IS_NULL(*id));
    struct table *t = pmemobj_direct(*id);
    t->room = room;
    return t;
}

static void *open_pmemobj(const struct column *column, const char *path) {
    (void)column;
    struct pmemobj *p = allocate(1, sizeof *p + strlen(path) + 1);
    strcpy(p->path, path);
    p->list = allocate(LIST_WORDS, sizeof *p->list);
    p->pool = pmemobj_create(path, "frames", POOL_BYTES, 0600);
    find_root(p);
    begin(p);
    check(pmemobj_tx_add_range_direct(p->root, sizeof *p->root));
    for (size_t reel = 0; reel < REELS; reel++)
        new_table(FIRST_ROOM, &p->root->tables[reel]);
    commit();
    return p;
}

static struct entry *probed(struct table *t, uint64_t frame, uint64_t step) {
    uint64_t mixed = frame * 0x9e3779b97f4a7c15;
    return &t->entries[((mixed ^ mixed >> 32) + step) & (t->room - 1)];
}

/* The frame's entry, or NULL; then *place is where it can go, NULL where the table must grow. */
static struct entry *find(struct table *t, uint64_t frame, struct entry **place) {
    *place = NULL;
    for (uint64_t step = 0; step < PROBE; step++) {
        struct entry *e = probed(t, frame, step);
        if (e->state == HELD && e->frame == frame)
            return e;
        if (e->state != HELD && *place == NULL)
            *place = e;
        if (e->state == EMPTY)
            return NULL;
    }
    return NULL;
}

/* 1, or 0 if some frame finds no place. */
static int copy_held(const struct table *from, struct table *to) {
    struct entry *place;
    for (uint64_t at = 0; at < from->room; at++) {
        if (from->entries[at].state != HELD)
            continue;
        find(to, from->entries[at].frame, &place);
        if (!place)
            return 0;
        *place = from->entries[at];
    }
    return 1;
}

/* The frames in a table of twice the room, or of more where a frame finds no place. */
static void grow(struct pmemobj *p, uint64_t reel) {
    PMEMoid old = p->root->tables[reel], id;
    const struct table *from = pmemobj_direct(old);
    uint64_t room = 2 * from->room;
    while (!copy_held(from, new_table(room, &id))) {
        check(pmemobj_tx_free(id));
        room *= 2;
    }
    check(pmemobj_tx_add_range_direct(&p->root->tables[reel], sizeof old));
    p->root->tables[reel] = id;
    check(pmemobj_tx_free(old));
}

static void set(struct entry *e, struct entry value) {
    check(pmemobj_tx_add_range_direct(e, sizeof *e));
    *e = value;
}

static size_t insert(void *state, const struct op *ops, size_t count) {
    struct pmemobj *p = state;
    for (size_t i = 0; i < count; i++) {
        struct entry *place;
        if (find(table_of(p, ops[i].reel), ops[i].frame, &place))
            fail("libpmemobj", "the frame is held already");
        begin(p);
        while (!place) {
            grow(p, ops[i].reel);
            find(table_of(p, ops[i].reel), ops[i].frame, &place);
        }
        set(place, (struct entry){ops[i].frame, HELD});
        commit();
    }
    return count;
}

static void load(void *state, const struct op *ops, size_t count) {
    insert(state, ops, count);
}

static size_t take_out(void *state, const struct op *ops, size_t count) {
    struct pmemobj *p = state;
    size_t removed = 0;
    for (size_t i = 0; i < count; i++) {
        struct entry *place, *e = find(table_of(p, ops[i].reel), ops[i].frame, &place);
        if (!e)
            continue;
        begin(p);
        set(e, (struct entry){0, REMOVED});
        commit();
        removed++;
    }
    return removed;
}

static size_t look_up(void *state, const struct op *ops, size_t count) {
    struct pmemobj *p = state;
    struct entry *place;
    size_t found = 0;
    for (size_t i = 0; i < count; i++)
        found += find(table_of(p, ops[i].reel), ops[i].frame, &place) != NULL;
    return found;
}

static size_t list(void *state, const struct op *ops, size_t count) {
    struct pmemobj *p = state;
    size_t all = 0;
    for (size_t i = 0; i < count; i++) {
        const struct table *t = table_of(p, ops[i].reel);
        size_t frames = 0;
        for (uint64_t at = 0; at < t->room; at++) {
            p->list[frames] = t->entries[at].frame;
            frames += t->entries[at].state == HELD;
        }
        all += frames;
    }
    return all;
}

static void prepare(void *state, enum row row, const struct op *ops, size_t count) {
    struct pmemobj *p = state;
    (void)ops, (void)count;
    if (row == RECOVERY)
        pmemobj_close(p->pool);
}

static size_t reopen(void *state, const struct op *ops, size_t count) {
    struct pmemobj *p = state;
    (void)count;
    p->pool = pmemobj_open(p->path, "frames");
    find_root(p);
    return look_up(p, ops, 1);
}

static double bytes(void *state) {
    struct pmemobj *p = state;
    size_t all = sizeof *p->root;
    for (size_t reel = 0; reel < REELS; reel++)
        all += pmemobj_alloc_usable_size(p->root->tables[reel]);
    return (double)all;
}

static void close_pmemobj(void *state) {
    struct pmemobj *p = state;
    pmemobj_close(p->pool);
    remove_file(p->path, "");
    free(p->list);
    free(p);
}

const struct store pmemobj_store = {
    .open = open_pmemobj,
    .load = load,
    .prepare = prepare,
    .run = {[INSERT] = insert, [REMOVE] = take_out, [HIT] = look_up, [MISS] = look_up, [LIST] = list, [RECOVERY] = reopen},
    .bytes = bytes,
    .close = close_pmemobj,
};
