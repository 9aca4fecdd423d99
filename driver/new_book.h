/* A book that takes its name when it is whole. */
#ifndef NEW_BOOK_H
#define NEW_BOOK_H

#include "answers.h"

struct new_book {
    const char *path; /* links are followed */
    uint64_t slots, nodes;
    const uint8_t *table; /* its own, or NULL */
    int force;            /* a file of that name may be replaced */
    uint64_t taken;       /* the answer where there is one that may not */
    int module;           /* on a module with line flushes */
    double until;         /* how long to wait for a lock, by clock_seconds() */
};

/* Formats a book under a name of its own beside the path, has it filled, and gives it the name. `fill` answers an exit status,
 * and has said what went wrong where that is not STATUS_DONE. Then, and at an interrupt, nothing is left but a file that was
 * there. The exit status. */
int new_book_make(const struct new_book *n, int (*fill)(void *context, const char *path), void *context);

#endif
