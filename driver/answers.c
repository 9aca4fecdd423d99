#include "answers.h"

#include <errno.h>
#include <inttypes.h>
#include <stdarg.h>
#include <stdio.h>
#include <string.h>

const char *say_command;

int answer_status(uint64_t answer) {
    if (answer == REELBOOK_DONE)
        return STATUS_DONE;
    return answer < BOOK_SYSTEM || answer >= BOOK_WRONG_MAP ? STATUS_REFUSED : STATUS_SYSTEM;
}

const char *answer_words(uint64_t answer) {
    static char words[80];
    switch (answer) {
    case BOOK_SYSTEM:
        return strerror(errno);
    case BOOK_NOT_REGULAR:
        return "not a regular file";
    case BOOK_NOT_A_BOOK:
        return "not a reel book";
    case BOOK_OTHER_VERSION:
        return "a reel book of another version";
    case BOOK_WRONG_LENGTH:
        return "a reel book of the wrong length: cut short, or not copied whole";
    case BOOK_LOCKED:
        return "in use by another process";
    case BOOK_EXISTS:
        return "exists already; --force overwrites it";
    case BOOK_KEPT:
        return "exists already, and is not overwritten";
    case BOOK_REPLACED:
        return "replaced by another process, again and again";
    case BOOK_WRONG_MAP:
        return "the saved map is not the image's";
    case BOOK_TABLE_MARK:
        return "word 3 of the image, which is for a table of its own, is neither 0 nor 1 (4)";
    case BOOK_TABLE_LACKS:
        return "the image's own table lacks some byte (4)";
    case REELBOOK_MALFORMED: /* for the table there are the two above */
        return "the tree is malformed (4)";
    default:
        snprintf(words, sizeof words, "%s (%" PRIu64 ")", reelbook_answer_text(answer), answer);
        return words;
    }
}

void say(const char *format, ...) {
    va_list arguments;
    fputs("reelbook: ", stderr);
    if (say_command)
        fprintf(stderr, "%s: ", say_command);
    va_start(arguments, format);
    vfprintf(stderr, format, arguments);
    va_end(arguments);
    fputc('\n', stderr);
}
