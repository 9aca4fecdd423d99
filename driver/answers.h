/* The driver's answers: those of the library, and its own. */
#ifndef ANSWERS_H
#define ANSWERS_H

#include "reelbook.h"

enum {
    BOOK_SYSTEM = REELBOOK_NO_EMPTY_GROUP + 1, /* the system refused: errno says why */
    BOOK_NOT_REGULAR,
    BOOK_NOT_A_BOOK,
    BOOK_OTHER_VERSION,
    BOOK_WRONG_LENGTH,
    BOOK_LOCKED,
    BOOK_EXISTS,
    BOOK_KEPT,      /* the same where there is no --force */
    BOOK_REPLACED,  /* another file took its name before it was locked */
    BOOK_WRONG_MAP, /* from here on: a book that is not sound */
    BOOK_TABLE_MARK,
    BOOK_TABLE_LACKS
};

/* The tool's exit statuses. From 2 on they come with a line on standard error. */
enum { STATUS_DONE, STATUS_NO, STATUS_REFUSED, STATUS_USAGE, STATUS_SYSTEM };

int answer_status(uint64_t answer);

/* An answer in words, a refusal with its number. Overwritten by the next call. */
const char *answer_words(uint64_t answer);

/* Says a line on standard error, after the tool's name and the command's. */
void say(const char *format, ...) __attribute__((format(printf, 1, 2)));

/* The command that say() names, or NULL. */
extern const char *say_command;

#endif
