/* bench MEMORY DISK TABLE FRAMES [quick]: measures the reel book, its floors and other stores. MEMORY and DISK are folders for
 * their files, TABLE is the file for the table that other programs read. Quick: in memory the book, C by hand and the floor, and
 * the book's earlier build if there is one. */
#define _GNU_SOURCE /* for sched_setaffinity */
#include "book.h"
#include "report.h"

#include <errno.h>
#include <sched.h>
#include <stdlib.h>
#include <string.h>
#include <time.h>

/* The columns of the book and, where there is one, of its earlier build. A quick run has the columns up to there, and the first
 * works. */
enum { OURS, BEFORE = 4, QUICK_WORKS = 2, QUICK_REPETITIONS = 9 };
#ifdef HAVE_BEFORE
enum { QUICK_COLUMNS = BEFORE + 1 };
#else
enum { QUICK_COLUMNS = BEFORE };
#endif

static const struct column columns[] = {
    [OURS] = {"ours flush", &book_store, MEMORY, BARRIER_FLUSH},
    {"ours none", &book_store, MEMORY, BARRIER_NONE},
    {"C by hand", &hand_store, MEMORY, BARRIER_FLUSH},
    {"floor", &floor_store, MEMORY, BARRIER_FLUSH},
#ifdef HAVE_BEFORE
    [BEFORE] = {"before", &before_store, MEMORY, BARRIER_FLUSH},
#endif
#ifdef HAVE_PMEMOBJ
    {"libpmemobj", &pmemobj_store, MEMORY, BARRIER_FLUSH},
#endif
#ifdef HAVE_LMDB
    {"LMDB", &lmdb_store, MEMORY, BARRIER_SYNC},
#endif
#ifdef HAVE_SQLITE
    {"SQLite", &sqlite_store, MEMORY, BARRIER_SYNC},
#endif
    {"ours msync", &book_store, DISK, BARRIER_SYNC},
    {"floor", &floor_store, DISK, BARRIER_SYNC},
#ifdef HAVE_LMDB
    {"LMDB", &lmdb_store, DISK, BARRIER_SYNC},
#endif
#ifdef HAVE_SQLITE
    {"SQLite", &sqlite_store, DISK, BARRIER_SYNC},
#endif
};
enum { COLUMNS = sizeof columns / sizeof columns[0] };

static const struct plan {
    struct work (*make)(size_t frames, size_t repetitions);
    size_t share; /* one of so many frames */
} plans[] = {{random_work, 1}, {consecutive_work, 1}, {random_work, 10}, {random_work, 100}};
enum { WORKS = sizeof plans / sizeof plans[0] };

void fail(const char *what, const char *because) {
    fprintf(stderr, "bench: %s: %s\n", what, because ? because : strerror(errno));
    exit(1);
}

void *allocate(size_t count, size_t size) {
    void *memory = calloc(count, size);
    if (!memory)
        fail("memory", NULL);
    return memory;
}

void remove_file(const char *path, const char *suffix) {
    char name[4096];
    snprintf(name, sizeof name, "%s%s", path, suffix);
    remove(name);
}

/* Stays on one processor, where that is allowed. */
static void pin(void) {
    cpu_set_t allowed, one;
    if (sched_getaffinity(0, sizeof allowed, &allowed) != 0)
        return;
    int cpu = CPU_SETSIZE - 1;
    while (cpu > 0 && !CPU_ISSET((size_t)cpu, &allowed))
        cpu--;
    CPU_ZERO(&one);
    CPU_SET((size_t)cpu, &one);
    sched_setaffinity(0, sizeof one, &one);
}

/* On disk the time waited counts. In memory nothing waits, and the processor's time leaves out what other programs take. */
static double now(enum where where) {
    struct timespec t;
    clock_gettime(where == DISK ? CLOCK_MONOTONIC : CLOCK_THREAD_CPUTIME_ID, &t);
    return (double)t.tv_sec * 1e9 + (double)t.tv_nsec;
}

static void *open_loaded(const struct column *c, const struct work *w, const char *const *folders) {
    char path[4096];
    snprintf(path, sizeof path, "%s/store-%zu", folders[c->where], (size_t)(c - columns));
    void *state = c->store->open(c, path);
    c->store->load(state, w->load, w->frames);
    return state;
}

static void fail_row(const struct column *c, enum row row) {
    char what[80];
    snprintf(what, sizeof what, "%s, %s", c->name, row_names[row]);
    fail(what, "not as many frames as expected");
}

/* Nanoseconds for an operation, or for a frame listed. */
static double time_batch(const struct column *c, void *state, const struct work *w, enum row row, size_t repetition) {
    size_t count;
    const struct op *ops = work_batch(w, row, c->where, repetition, &count);
    if (c->store->prepare)
        c->store->prepare(state, row, ops, count);
    double start = now(c->where);
    size_t done = c->store->run[row](state, ops, count);
    double end = now(c->where);
    if (row != LIST && done != (row == MISS && c->store != &floor_store ? 0 : count))
        fail_row(c, row);
    return (end - start) / (double)(row == LIST ? done : count);
}

/* Every batch inserted and removed as many: the frames are still as many as were loaded. */
static void check_frames(const struct column *c, void *state, const struct work *w) {
    struct op reels[REELS];
    for (size_t reel = 0; reel < REELS; reel++)
        reels[reel] = (struct op){reel, 0};
    if (c->store != &floor_store && c->store->run[LIST](state, reels, REELS) != w->frames)
        fail(c->name, "frames were lost or invented");
}

static void note_editions(void *const *states, struct result *m) {
    m->edition = m->edition_before = book_edition(states[OURS]);
#ifdef HAVE_BEFORE
    m->edition_before = book_edition(states[BEFORE]);
#endif
}

/* The column that is measured at a column's turn, on its state: itself, but the book and its earlier build change places with
 * each repetition. Where an image lies in memory, and what ran before, makes more of a difference than most changes of the code.
 * Where the editions differ they stay: the earlier build may not know the book's. */
static size_t measured_at(const struct result *m, size_t turn, size_t repetition) {
#ifdef HAVE_BEFORE
    if (m->edition == m->edition_before && repetition % 2 == 1 && (turn == OURS || turn == BEFORE))
        return OURS + BEFORE - turn;
#endif
    (void)m, (void)repetition;
    return turn;
}

/* The columns take turns, batch by batch, and another one starts each time. */
static void measure(const struct work *w, size_t count, const char *const *folders, struct result *m) {
    void *states[COLUMNS];
    m->name = w->name;
    m->frames = w->frames;
    for (size_t c = 0; c < count; c++) {
        states[c] = open_loaded(&columns[c], w, folders);
        m->bytes[c] = columns[c].store->bytes(states[c]);
    }
    note_editions(states, m);
    for (enum row row = 0; row < ROWS; row++)
        m->repetitions[row] = row == RECOVERY && w->repetitions > RECOVERIES ? RECOVERIES : w->repetitions;
    for (size_t k = 0; k < w->repetitions; k++)
        for (enum row row = 0; row < ROWS; row++)
            for (size_t turn = 0; turn < count && k < m->repetitions[row]; turn++) {
                size_t at = (turn + k) % count, c = measured_at(m, at, k);
                if (is_measured(columns[c].where, row))
                    m->times[row][c][k] = time_batch(&columns[c], states[at], w, row, k);
            }
    for (size_t c = 0; c < count; c++) {
        check_frames(&columns[c], states[c], w);
        columns[c].store->close(states[c]);
    }
}

/* In the smallest work a batch must have as many operations as there are reels in a list's batch. */
static size_t frame_count(const char *text) {
    enum { LEAST = 100 * 2 * REPETITIONS * LISTED_REELS };
    char *end;
    unsigned long long frames = strtoull(text, &end, 10);
    if (*end != '\0' || frames < LEAST)
        fail(text, "not a number of frames that is large enough");
    return (size_t)frames;
}

int main(int argc, char **argv) {
    static struct result results[WORKS];
    int quick = argc == 6 && strcmp(argv[5], "quick") == 0;
    if (argc != 5 && !quick)
        fail("usage", "bench MEMORY DISK TABLE FRAMES [quick]");
    size_t frames = frame_count(argv[4]);
    const char *const folders[PLACES] = {[MEMORY] = argv[1], [DISK] = argv[2]};
    struct report report = {columns, quick ? QUICK_COLUMNS : COLUMNS, results, quick ? QUICK_WORKS : WORKS};
    pin();
    for (size_t i = 0; i < report.result_count; i++) {
        struct work w = plans[i].make(frames / plans[i].share, quick ? QUICK_REPETITIONS : REPETITIONS);
        measure(&w, report.column_count, folders, &results[i]);
        free_work(&w);
    }
    print_tables(&report);
    print_aims(&report);
    FILE *table = fopen(argv[3], "w");
    if (!table)
        fail(argv[3], NULL);
    write_tsv(&report, table);
    if (fclose(table) != 0)
        fail(argv[3], NULL);
    return 0;
}
