#include "book.h"

#include <errno.h>
#include <stdlib.h>
#include <string.h>
#include <sys/mman.h>
#include <unistd.h>

static uint64_t done_unless(int failed) {
    return failed ? BOOK_SYSTEM : REELBOOK_DONE;
}

/* The clean flag and the saved map, against a power failure between any two stores. Where the flag is lasting as 1, the saved map
 * is lasting and is the image's, and no place is claimed.
 *   opening   flag 1: the map is loaded; flag 0: the saved map may be torn or old and is not read. Flag 0; barrier; only then
 *             comes the first store to the image. Where the flag was 0, recovery builds the map; barrier over the image.
 *   working   the flag is 0, whatever happens: the next opening recovers.
 *   closing   every head is idle, every script's last barrier has passed; the map is saved; barrier; flag 1; barrier.
 * The flag is one word, so a failure leaves it 0 or 1, and while its own barrier has not passed either is right: the map is
 * lasting before the flag can be 1, and the image is untouched before it is 0. A flag that is read as 0 need not be lasting: its
 * process may have been killed before the barrier. So opening stores it again. Where closing is left out, as after a failed
 * barrier, the next opening recovers. */
static uint64_t set_clean_flag(struct book *b, uint64_t value) {
    return done_unless(medium_settle(&b->medium, FILE_CLEAN_AT, value));
}

static uint64_t begin_writing(struct book *b) {
    if (b->file.clean)
        memcpy(b->map, b->medium.words + b->file.map_at, b->file.map_words * sizeof *b->map);
    return set_clean_flag(b, 0);
}

static uint64_t close_cleanly(struct book *b) {
    memcpy(b->medium.words + b->file.map_at, b->map, b->file.map_words * sizeof *b->map);
    if (medium_barrier_over(&b->medium, b->file.map_at, b->file.map_words) != 0)
        return BOOK_SYSTEM;
    return set_clean_flag(b, 1);
}

static int heads_idle(const struct book *b) {
    for (size_t head = 0; head < REELBOOK_HEADS; head++)
        if (b->heads[head * REELBOOK_HEAD_WORDS + REELBOOK_HEAD_STATE_AT] != REELBOOK_IDLE)
            return 0;
    return 1;
}

/* A file without the magic is no book: it goes first and comes last, so that a format cut short leaves none. */
static uint64_t write_book(const struct file *f, struct medium *m, const char *path, const uint8_t *table) {
    uint64_t heads[REELBOOK_HEADS_WORDS];
    if (medium_settle(m, FILE_MAGIC_AT, 0) != 0)
        return BOOK_SYSTEM;
    uint64_t answer = reelbook_format(m->words + f->image_at, f->image_words, m->words + f->map_at, f->map_words, heads, table,
                                      table ? REELBOOK_TABLE_BYTES : 0, f->slots, f->nodes);
    if (answer != REELBOOK_DONE)
        return answer;
    memset(m->words, 0, FILE_PAGE_WORDS * sizeof *m->words);
    m->words[FILE_VERSION_AT] = table ? FILE_VERSION_OWN_TABLE : FILE_VERSION;
    m->words[FILE_SLOTS_AT] = f->slots;
    m->words[FILE_NODES_AT] = f->nodes;
    m->words[FILE_CLEAN_AT] = 1;
    if (medium_barrier_over(m, 0, f->words) != 0 || file_settle(f, path) != REELBOOK_DONE)
        return BOOK_SYSTEM;
    return done_unless(medium_settle(m, FILE_MAGIC_AT, FILE_MAGIC));
}

uint64_t book_format(const char *path, uint64_t slots, uint64_t nodes, const uint8_t *table, int force, int module,
                     double until) {
    struct file f;
    struct medium m;
    int created;
    file_lay_out(&f, slots, nodes);
    uint64_t answer = file_create(&f, path, force, until, &created);
    if (answer != REELBOOK_DONE)
        return answer;
    answer = done_unless(medium_map(&m, f.fd, f.words, 1, module));
    if (answer == REELBOOK_DONE) {
        answer = write_book(&f, &m, path, table);
        medium_unmap(&m);
    }
    if (answer != REELBOOK_DONE && created)
        unlink(path);
    file_close(&f);
    return answer;
}

/* A private copy has only those pages of its own that are written to. */
static int map_privately(struct medium *m, int fd, size_t length) {
    void *words = mmap(NULL, length * sizeof *m->words, PROT_READ | PROT_WRITE, MAP_PRIVATE, fd, 0);
    if (words == MAP_FAILED)
        return -1;
    *m = (struct medium){.words = words, .length = length, .barrier = BARRIER_NONE};
    return 0;
}

static void let_go(struct book *b) {
    free(b->map);
    free(b->scratch);
    if (b->medium.words)
        medium_unmap(&b->medium);
    file_close(&b->file);
}

static uint64_t map_book(struct book *b, int module) {
    const struct file *f = &b->file;
    if ((b->writable ? medium_map(&b->medium, f->fd, f->words, 1, module) : map_privately(&b->medium, f->fd, f->words)) != 0)
        return BOOK_SYSTEM;
    b->image = b->medium.words + f->image_at;
    b->map = calloc(f->map_words, sizeof *b->map);
    b->scratch = calloc(f->map_words, sizeof *b->scratch);
    if (!b->map || !b->scratch)
        return BOOK_SYSTEM;
    int agree = b->image[REELBOOK_SLOTS_AT] == f->slots && b->image[REELBOOK_NODES_AT] == f->nodes;
    return agree ? REELBOOK_DONE : REELBOOK_BAD_IMAGE;
}

/* A refused recovery has changed nothing: the flag is as it was. */
static uint64_t prepare(struct book *b, enum book_mode mode) {
    uint64_t answer = begin_writing(b);
    if (answer != REELBOOK_DONE || (b->file.clean && mode != BOOK_RECOVER))
        return answer;
    answer = book_recover(b);
    if (answer != REELBOOK_DONE && answer != BOOK_SYSTEM && b->file.clean)
        set_clean_flag(b, 1);
    return answer;
}

/* To be recovered, and so to be written, unless that may not be. */
static uint64_t reopen_unclean(struct book *b, const char *path, double until) {
    file_close(&b->file);
    uint64_t answer = file_open(&b->file, path, 1, until);
    b->writable = answer == REELBOOK_DONE;
    int forbidden = answer == BOOK_SYSTEM && (errno == EACCES || errno == EPERM || errno == EROFS);
    return forbidden ? file_open(&b->file, path, 0, until) : answer;
}

uint64_t book_open(struct book *b, const char *path, enum book_mode mode, struct crash *crash, int module, double until) {
    *b = (struct book){.crash = crash};
    b->writable = mode == BOOK_WRITE || mode == BOOK_RECOVER;
    uint64_t answer = file_open(&b->file, path, b->writable, until);
    b->unclean = answer == REELBOOK_DONE && !b->file.clean;
    if (b->unclean && mode == BOOK_READ)
        answer = reopen_unclean(b, path, until);
    if (answer != REELBOOK_DONE)
        return answer;
    answer = map_book(b, module);
    if (answer == REELBOOK_DONE && b->writable)
        answer = prepare(b, mode);
    else if (answer == REELBOOK_DONE && mode == BOOK_READ && !b->file.clean)
        answer = book_recover(b);
    if (answer != REELBOOK_DONE)
        let_go(b);
    return answer;
}

uint64_t book_close(struct book *b) {
    int clean = b->writable && !b->failed && heads_idle(b);
    uint64_t answer = clean ? close_cleanly(b) : REELBOOK_DONE;
    let_go(b);
    return answer;
}

void book_unsettle(struct book *b) {
    b->held = b->medium.barrier;
    b->medium.barrier = BARRIER_NONE;
}

uint64_t book_settle(struct book *b) {
    b->medium.barrier = b->held;
    b->failed = medium_barrier_over(&b->medium, b->file.image_at, b->file.image_words) != 0;
    return done_unless(b->failed);
}
