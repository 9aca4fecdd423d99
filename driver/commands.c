#include "commands.h"

#include <stdio.h>

int refuse(uint64_t answer, const char *about) {
    say("%s: %s", about, answer_words(answer));
    return answer_status(answer);
}

int refuse_reel(uint64_t answer, uint64_t reel) {
    char about[40];
    snprintf(about, sizeof about, "reel %" PRIu64, reel);
    return refuse(answer, about);
}

int begin(struct book *b, const struct arguments *a, enum book_mode mode) {
    const char *path = a->operands[0];
    uint64_t answer = book_open(b, path, mode, a->crash, a->module, a->until);
    if (answer != REELBOOK_DONE) {
        say("%s: %s%s", path, b->unclean ? "not closed cleanly, and not recovered: " : "", answer_words(answer));
        return answer_status(answer);
    }
    if (b->recovered && mode != BOOK_RECOVER)
        say("%s: not closed cleanly; %s, locate words mended: %zu", path,
            b->writable ? "recovered" : "it may not be written, so a copy is recovered and read", b->mended);
    return STATUS_DONE;
}

int finish(struct book *b, const struct arguments *a, int status) {
    uint64_t answer = book_close(b);
    if (a->crash)
        say("ended before the power failure, after %" PRIu64 " %s", a->crash->passed, entries_word(a->crash->passed));
    if (a->values[OPTION_ENTRIES])
        say("stores: %" PRIu64 ", line flushes: %" PRIu64 ", barriers: %" PRIu64, b->entries.stores, b->entries.flushes,
            b->entries.barriers);
    return answer == REELBOOK_DONE ? status : refuse(answer, a->operands[0]);
}

/* A sound book alone is counted. One that was not closed cleanly has just been recovered, which checks as much. */
static uint64_t check_and_count(struct book *b, struct survey *s, const char *path) {
    uint64_t answer = b->recovered ? REELBOOK_DONE : book_check(b);
    if (answer != REELBOOK_DONE) {
        say("%s: not sound: %s", path, answer_words(answer));
        return answer;
    }
    answer = survey_take(s, b);
    if (answer != REELBOOK_DONE)
        refuse(answer, path);
    return answer;
}

int begin_survey(struct book *b, struct survey *s, const struct arguments *a) {
    int status = begin(b, a, BOOK_READ);
    if (status != STATUS_DONE)
        return status;
    uint64_t answer = check_and_count(b, s, a->operands[0]);
    return answer == REELBOOK_DONE ? STATUS_DONE : finish(b, a, answer_status(answer));
}
