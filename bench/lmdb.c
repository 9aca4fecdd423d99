/* LMDB: a reel is a key, its frames are the key's sorted duplicates. A write transaction, and its sync, for every insert and
 * remove; one read transaction for a batch of lookups. */
#include "bench.h"

#include <lmdb.h>
#include <stdio.h>
#include <stdlib.h>
#include <string.h>

enum { MAP_BYTES = 1 << 30 };

struct lmdb {
    MDB_env *env;
    MDB_dbi dbi;
    uint64_t *list;
    char path[];
};

static void check(int error) {
    if (error)
        fail("LMDB", mdb_strerror(error));
}

static MDB_val word(const uint64_t *w) {
    return (MDB_val){sizeof *w, (void *)(uintptr_t)w};
}

static MDB_txn *begin(struct lmdb *l, unsigned flags) {
    MDB_txn *txn;
    check(mdb_txn_begin(l->env, NULL, flags, &txn));
    return txn;
}

static void attach(struct lmdb *l) {
    check(mdb_env_create(&l->env));
    check(mdb_env_set_mapsize(l->env, MAP_BYTES));
    check(mdb_env_open(l->env, l->path, MDB_NOSUBDIR, 0600));
    MDB_txn *txn = begin(l, 0);
    check(mdb_dbi_open(txn, NULL, MDB_CREATE | MDB_INTEGERKEY | MDB_DUPSORT | MDB_DUPFIXED | MDB_INTEGERDUP, &l->dbi));
    check(mdb_txn_commit(txn));
}

static void *open_lmdb(const struct column *column, const char *path) {
    (void)column;
    struct lmdb *l = allocate(1, sizeof *l + strlen(path) + 1);
    strcpy(l->path, path);
    l->list = allocate(LIST_WORDS, sizeof *l->list);
    attach(l);
    return l;
}

static void put(struct lmdb *l, MDB_txn *txn, const struct op *op) {
    MDB_val key = word(&op->reel), data = word(&op->frame);
    check(mdb_put(txn, l->dbi, &key, &data, MDB_NODUPDATA));
}

static void load(void *state, const struct op *ops, size_t count) {
    struct lmdb *l = state;
    MDB_txn *txn = begin(l, 0);
    for (size_t i = 0; i < count; i++)
        put(l, txn, &ops[i]);
    check(mdb_txn_commit(txn));
}

static size_t insert(void *state, const struct op *ops, size_t count) {
    struct lmdb *l = state;
    for (size_t i = 0; i < count; i++) {
        MDB_txn *txn = begin(l, 0);
        put(l, txn, &ops[i]);
        check(mdb_txn_commit(txn));
    }
    return count;
}

static size_t take_out(void *state, const struct op *ops, size_t count) {
    struct lmdb *l = state;
    for (size_t i = 0; i < count; i++) {
        MDB_val key = word(&ops[i].reel), data = word(&ops[i].frame);
        MDB_txn *txn = begin(l, 0);
        check(mdb_del(txn, l->dbi, &key, &data));
        check(mdb_txn_commit(txn));
    }
    return count;
}

static MDB_cursor *open_cursor(struct lmdb *l, MDB_txn **txn) {
    MDB_cursor *cursor;
    *txn = begin(l, MDB_RDONLY);
    check(mdb_cursor_open(*txn, l->dbi, &cursor));
    return cursor;
}

static void close_cursor(MDB_txn *txn, MDB_cursor *cursor) {
    mdb_cursor_close(cursor);
    mdb_txn_abort(txn);
}

static size_t look_up(void *state, const struct op *ops, size_t count) {
    MDB_txn *txn;
    MDB_cursor *cursor = open_cursor(state, &txn);
    size_t found = 0;
    for (size_t i = 0; i < count; i++) {
        MDB_val key = word(&ops[i].reel), data = word(&ops[i].frame);
        int error = mdb_cursor_get(cursor, &key, &data, MDB_GET_BOTH);
        if (error != MDB_NOTFOUND)
            check(error);
        found += error == 0;
    }
    close_cursor(txn, cursor);
    return found;
}

/* A page of frames at a time. */
static size_t list_reel(MDB_cursor *cursor, const struct op *op, uint64_t *list) {
    MDB_val key = word(&op->reel), data;
    size_t frames = 0;
    int error = mdb_cursor_get(cursor, &key, &data, MDB_SET);
    for (MDB_cursor_op next = MDB_GET_MULTIPLE; error == 0; next = MDB_NEXT_MULTIPLE) {
        error = mdb_cursor_get(cursor, &key, &data, next);
        if (error == 0) {
            memcpy(list + frames, data.mv_data, data.mv_size);
            frames += data.mv_size / sizeof *list;
        }
    }
    if (error != MDB_NOTFOUND)
        check(error);
    return frames;
}

static size_t list(void *state, const struct op *ops, size_t count) {
    struct lmdb *l = state;
    MDB_txn *txn;
    MDB_cursor *cursor = open_cursor(l, &txn);
    size_t frames = 0;
    for (size_t i = 0; i < count; i++)
        frames += list_reel(cursor, &ops[i], l->list);
    close_cursor(txn, cursor);
    return frames;
}

static void prepare(void *state, enum row row, const struct op *ops, size_t count) {
    struct lmdb *l = state;
    (void)ops, (void)count;
    if (row == RECOVERY)
        mdb_env_close(l->env);
}

static size_t reopen(void *state, const struct op *ops, size_t count) {
    (void)count;
    attach(state);
    return look_up(state, ops, 1);
}

/* All pages of the file up to the last: none is free after a load. */
static double bytes(void *state) {
    struct lmdb *l = state;
    MDB_envinfo info;
    MDB_stat stat;
    check(mdb_env_info(l->env, &info));
    check(mdb_env_stat(l->env, &stat));
    return (double)(info.me_last_pgno + 1) * stat.ms_psize;
}

static void close_lmdb(void *state) {
    struct lmdb *l = state;
    mdb_env_close(l->env);
    remove_file(l->path, "");
    remove_file(l->path, "-lock");
    free(l->list);
    free(l);
}

const struct store lmdb_store = {
    .open = open_lmdb,
    .load = load,
    .prepare = prepare,
    .run = {[INSERT] = insert, [REMOVE] = take_out, [HIT] = look_up, [MISS] = look_up, [LIST] = list, [RECOVERY] = reopen},
    .bytes = bytes,
    .close = close_lmdb,
};
