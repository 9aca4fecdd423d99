/* A reel book with the buffers that its operations are lent. */
#ifndef BOOK_H
#define BOOK_H

#include "bench.h"
#include "reelbook.h"

struct book {
    struct medium medium;
    enum barrier barrier; /* from the end of the load on */
    size_t image_words;
    size_t map_words;
    uint64_t *map;
    uint64_t *scratch;
    uint64_t *list;
    uint64_t heads[REELBOOK_HEADS_WORDS];
    uint64_t script[REELBOOK_SCRIPT_WORDS];
    uint64_t left;  /* places left in the node of the last claim */
    uint64_t nodes; /* on the path of the last lookup; builds before 5.0 do not tell */
};

void *book_open(const struct column *column, const char *path);
void book_load(void *state, const struct op *ops, size_t count);
size_t book_list(void *state, const struct op *ops, size_t count);
double book_bytes(void *state);
uint64_t book_edition(const void *state);
void book_close(void *state);

/* The operations on their own: each writes its script and hands back the script's length. None may be refused. */
size_t book_claim(struct book *b, const struct op *op);
size_t book_fill(struct book *b);
size_t book_commit(struct book *b);
size_t book_remove(struct book *b, const struct op *op);

#endif
