/* SQLite: a table (reel, frame) without row numbers. Write-ahead log, synced at every transaction; a transaction for every insert
 * and remove, one read transaction for a batch of lookups; statements are prepared once. */
#include "bench.h"

#include <sqlite3.h>
#include <stdio.h>
#include <stdlib.h>
#include <string.h>

enum statement { PUT, DELETE, HAS, SELECT, STATEMENTS };

static const char *const texts[STATEMENTS] = {
    [PUT] = "INSERT INTO frames VALUES (?1, ?2)",
    [DELETE] = "DELETE FROM frames WHERE reel = ?1 AND frame = ?2",
    [HAS] = "SELECT 1 FROM frames WHERE reel = ?1 AND frame = ?2",
    [SELECT] = "SELECT frame FROM frames WHERE reel = ?1",
};

struct sqlite {
    sqlite3 *db;
    sqlite3_stmt *statements[STATEMENTS];
    uint64_t *list;
    char path[];
};

static void check(struct sqlite *s, int answer) {
    if (answer != SQLITE_OK)
        fail("SQLite", sqlite3_errmsg(s->db));
}

static void execute(struct sqlite *s, const char *text) {
    check(s, sqlite3_exec(s->db, text, NULL, NULL, NULL));
}

/* The log is left where it is at the end, as a power failure leaves it, so that opening again has to recover it. */
static void attach(struct sqlite *s) {
    if (sqlite3_open(s->path, &s->db) != SQLITE_OK)
        fail(s->path, sqlite3_errmsg(s->db));
    check(s, sqlite3_db_config(s->db, SQLITE_DBCONFIG_NO_CKPT_ON_CLOSE, 1, NULL));
    execute(s, "PRAGMA locking_mode = EXCLUSIVE; PRAGMA cache_size = -262144");
    execute(s, "PRAGMA journal_mode = WAL; PRAGMA synchronous = FULL");
    execute(s, "CREATE TABLE IF NOT EXISTS frames (reel INTEGER, frame INTEGER, PRIMARY KEY (reel, frame)) WITHOUT ROWID");
    for (size_t i = 0; i < STATEMENTS; i++)
        check(s, sqlite3_prepare_v2(s->db, texts[i], -1, &s->statements[i], NULL));
}

static void detach(struct sqlite *s) {
    for (size_t i = 0; i < STATEMENTS; i++)
        sqlite3_finalize(s->statements[i]);
    check(s, sqlite3_close(s->db));
}

static void *open_sqlite(const struct column *column, const char *path) {
    (void)column;
    struct sqlite *s = allocate(1, sizeof *s + strlen(path) + 1);
    strcpy(s->path, path);
    s->list = allocate(LIST_WORDS, sizeof *s->list);
    attach(s);
    return s;
}

static sqlite3_stmt *bind(struct sqlite *s, enum statement which, const struct op *op) {
    sqlite3_stmt *statement = s->statements[which];
    check(s, sqlite3_bind_int64(statement, 1, (sqlite3_int64)op->reel));
    if (which != SELECT)
        check(s, sqlite3_bind_int64(statement, 2, (sqlite3_int64)op->frame));
    return statement;
}

static size_t change(struct sqlite *s, enum statement which, const struct op *ops, size_t count) {
    size_t changed = 0;
    for (size_t i = 0; i < count; i++) {
        sqlite3_stmt *statement = bind(s, which, &ops[i]);
        if (sqlite3_step(statement) != SQLITE_DONE)
            fail("SQLite", sqlite3_errmsg(s->db));
        check(s, sqlite3_reset(statement));
        changed += (size_t)sqlite3_changes(s->db);
    }
    return changed;
}

/* The log keeps its length and is written from its start again, as after long use: a log that grows costs more to sync. */
static void load(void *state, const struct op *ops, size_t count) {
    struct sqlite *s = state;
    execute(s, "BEGIN");
    change(s, PUT, ops, count);
    execute(s, "COMMIT; PRAGMA wal_checkpoint(RESTART)");
}

static size_t insert(void *state, const struct op *ops, size_t count) {
    return change(state, PUT, ops, count);
}

static size_t take_out(void *state, const struct op *ops, size_t count) {
    return change(state, DELETE, ops, count);
}

static size_t look_up(void *state, const struct op *ops, size_t count) {
    struct sqlite *s = state;
    size_t found = 0;
    execute(s, "BEGIN");
    for (size_t i = 0; i < count; i++) {
        sqlite3_stmt *statement = bind(s, HAS, &ops[i]);
        found += sqlite3_step(statement) == SQLITE_ROW;
        check(s, sqlite3_reset(statement));
    }
    execute(s, "COMMIT");
    return found;
}

static size_t list(void *state, const struct op *ops, size_t count) {
    struct sqlite *s = state;
    size_t all = 0;
    for (size_t i = 0; i < count; i++) {
        sqlite3_stmt *statement = bind(s, SELECT, &ops[i]);
        size_t frames = 0;
        while (sqlite3_step(statement) == SQLITE_ROW)
            s->list[frames++] = (uint64_t)sqlite3_column_int64(statement, 0);
        check(s, sqlite3_reset(statement));
        all += frames;
    }
    return all;
}

static void prepare(void *state, enum row row, const struct op *ops, size_t count) {
    (void)ops, (void)count;
    if (row == RECOVERY)
        detach(state);
}

static size_t reopen(void *state, const struct op *ops, size_t count) {
    (void)count;
    attach(state);
    return look_up(state, ops, 1);
}

static double number(struct sqlite *s, const char *text) {
    sqlite3_stmt *statement;
    check(s, sqlite3_prepare_v2(s->db, text, -1, &statement, NULL));
    if (sqlite3_step(statement) != SQLITE_ROW)
        fail("SQLite", sqlite3_errmsg(s->db));
    double value = sqlite3_column_double(statement, 0);
    sqlite3_finalize(statement);
    return value;
}

static double bytes(void *state) {
    return number(state, "PRAGMA page_count") * number(state, "PRAGMA page_size");
}

static void close_sqlite(void *state) {
    struct sqlite *s = state;
    detach(s);
    remove_file(s->path, "");
    remove_file(s->path, "-wal");
    free(s->list);
    free(s);
}

const struct store sqlite_store = {
    .open = open_sqlite,
    .load = load,
    .prepare = prepare,
    .run = {[INSERT] = insert, [REMOVE] = take_out, [HIT] = look_up, [MISS] = look_up, [LIST] = list, [RECOVERY] = reopen},
    .bytes = bytes,
    .close = close_sqlite,
};
