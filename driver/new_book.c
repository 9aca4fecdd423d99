#define _XOPEN_SOURCE 700 /* for realpath */
#include "new_book.h"

#include <stdlib.h>

#include "commands.h"
#include "unfinished.h"

static int make_at(const struct new_book *n, const char *target, const char *temporary, int (*fill)(void *, const char *),
                   void *context) {
    uint64_t answer = book_format(temporary, n->slots, n->nodes, n->table, 0, n->module, n->until);
    int status = answer == REELBOOK_DONE ? fill(context, temporary) : STATUS_DONE;
    if (answer == REELBOOK_DONE && status == STATUS_DONE)
        answer = file_take_name(temporary, target, n->force, n->until);
    if (answer == REELBOOK_DONE)
        return status;
    return refuse(answer == BOOK_EXISTS ? n->taken : answer, n->path);
}

int new_book_make(const struct new_book *n, int (*fill)(void *context, const char *path), void *context) {
    char *followed = realpath(n->path, NULL);
    const char *target = followed ? followed : n->path;
    char *temporary = unfinished_name(target);
    int status = STATUS_SYSTEM;
    if (temporary) {
        unfinished_file(temporary);
        status = make_at(n, target, temporary, fill, context);
    } else {
        refuse(BOOK_SYSTEM, n->path);
    }
    if (status != STATUS_DONE)
        unfinished_remove();
    unfinished_file(NULL);
    free(temporary);
    free(followed);
    return status;
}
