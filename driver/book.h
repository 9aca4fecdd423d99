/* A book in a file, and the operations on it. */
#ifndef BOOK_H
#define BOOK_H

#include "carry.h"
#include "crash.h"
#include "file.h"
#include "medium.h"

enum book_mode {
    BOOK_READ,   /* a private copy; a book that was not closed cleanly is recovered, or, if it may not be written, the copy */
    BOOK_COPY,   /* a private copy, however it was closed */
    BOOK_WRITE,  /* recovered if it was not closed cleanly */
    BOOK_RECOVER /* recovered however it was closed */
};

struct book {
    struct file file;
    struct medium medium;
    uint64_t *image; /* in the mapping */
    uint64_t *map, *scratch;
    uint64_t heads[REELBOOK_HEADS_WORDS];
    uint64_t script[REELBOOK_SCRIPT_WORDS], used;
    uint64_t module_script[REELBOOK_MODULE_WORDS]; /* the same, translated */
    struct entries entries;                        /* of the scripts carried out */
    uint64_t left;       /* clear places left in the node of the last claim; 0 if it was refused */
    int writable;        /* the file itself is mapped */
    int unclean;         /* it was not closed cleanly */
    int failed;          /* a barrier failed: what is lasting is not known */
    int recovered;       /* since it was opened */
    size_t mended;       /* locate words that the recovery changed */
    enum barrier held;   /* the medium's barrier while none is passed */
    struct crash *crash; /* a power failure to come, or NULL */
};

/* Each answers REELBOOK_DONE, a refusal of the library or a number of answers.h. A file is on a module with line flushes or not.
 * A lock is waited for until then, by clock_seconds(). A new book has so many slots and nodes, none outside the library's limits,
 * and, unless it is NULL, a table of its own that the library does not refuse. */
uint64_t book_format(const char *path, uint64_t slots, uint64_t nodes, const uint8_t *table, int force, int module,
                     double until);
uint64_t book_open(struct book *b, const char *path, enum book_mode mode, struct crash *crash, int module, double until);
uint64_t book_recover(struct book *b);
uint64_t book_close(struct book *b);

/* From the first on no barrier is passed, until the second passes one over all: for a book that has no name yet. */
void book_unsettle(struct book *b);
uint64_t book_settle(struct book *b);

/* Makes a book, which has as many slots and nodes, one of the other edition with the reels and frames of the old one, whose image
 * is only read. */
uint64_t book_convert(const struct book *old, struct book *b);

/* Is a private copy sound, and the saved map its map? It stays as it was: `mended` is how many locate words a recovery would. */
uint64_t book_check(struct book *b);

uint64_t book_open_reel(struct book *b, uint64_t reel);
uint64_t book_add(struct book *b, uint64_t reel, uint64_t frame); /* claim, fill, commit */
uint64_t book_remove(struct book *b, uint64_t reel, uint64_t frame);
uint64_t book_retire(struct book *b, uint64_t reel);

/* Gives back one group of empty nodes, and adds to *freed how many these are. REELBOOK_NO_EMPTY_GROUP if there is none. */
uint64_t book_tidy(struct book *b, uint64_t reel, uint64_t *freed);

uint64_t book_has(const struct book *b, uint64_t reel, uint64_t frame, uint64_t *yes, uint64_t *nodes);

/* The caller frees *frames. */
uint64_t book_list(struct book *b, uint64_t reel, uint64_t **frames, uint64_t *count);

/* The words of a slot, of a node. */
static inline const uint64_t *book_slot(const struct book *b, uint64_t slot) {
    return b->image + REELBOOK_HEADER_WORDS + REELBOOK_SLOT_WORDS * slot;
}

static inline const uint64_t *book_node(const struct book *b, uint64_t node) {
    return book_slot(b, b->file.slots) + REELBOOK_NODE_WORDS * node;
}

enum { NODE_PLACES = REELBOOK_NODE_WORDS - REELBOOK_NODE_FRAMES };

#endif
