/* The commands that read. */
#define _POSIX_C_SOURCE 200809L
#include <inttypes.h>
#include <stdio.h>
#include <stdlib.h>
#include <string.h>
#include <unistd.h>

#include "commands.h"
#include "draw.h"
#include "form.h"
#include "own_table.h"
#include "output.h"
#include "survey.h"

int run_has(const struct arguments *a) {
    struct book b;
    uint64_t reel, frame, yes, nodes;
    if (arguments_number(a->operands[1], &reel) != 0 || arguments_number(a->operands[2], &frame) != 0)
        return STATUS_USAGE;
    int status = begin(&b, a, BOOK_READ);
    if (status != STATUS_DONE)
        return status;
    uint64_t answer = book_has(&b, reel, frame, &yes, &nodes);
    if (answer != REELBOOK_DONE)
        return finish(&b, a, refuse_reel(answer, reel));
    fputs(yes ? "yes" : "no", stdout);
    if (a->values[OPTION_PATH_NODES])
        printf(" %" PRIu64, nodes);
    putchar('\n');
    return finish(&b, a, yes ? STATUS_DONE : STATUS_NO);
}

int run_list(const struct arguments *a) {
    struct book b;
    uint64_t reel, *frames, count;
    if (arguments_number(a->operands[1], &reel) != 0)
        return STATUS_USAGE;
    int status = begin(&b, a, BOOK_READ);
    if (status != STATUS_DONE)
        return status;
    uint64_t answer = book_list(&b, reel, &frames, &count);
    if (answer != REELBOOK_DONE)
        return finish(&b, a, refuse_reel(answer, reel));
    print_list(form_of(a), reel, frames, count);
    free(frames);
    return finish(&b, a, STATUS_DONE);
}

int run_check(const struct arguments *a) {
    struct book b;
    int status = begin(&b, a, BOOK_COPY);
    if (status != STATUS_DONE)
        return status;
    const char *closed = b.file.clean ? "closed cleanly" : "not closed cleanly";
    uint64_t answer = book_check(&b);
    if (answer == REELBOOK_DONE)
        printf("sound; %s; locate words that differ: %zu\n", closed, b.mended);
    else
        say("%s: not sound: %s; %s", a->operands[0], answer_words(answer), closed);
    return finish(&b, a, answer_status(answer));
}

int run_draw(const struct arguments *a) {
    struct book b;
    struct survey s;
    struct output o;
    const char *to = a->values[OPTION_OUTPUT];
    int status = begin_survey(&b, &s, a);
    if (status != STATUS_DONE)
        return status;
    status = output_begin(&o, to) == 0 ? STATUS_DONE : STATUS_SYSTEM;
    if (status == STATUS_DONE) {
        draw(o.stream, &b, &s, a->operands[0]);
        status = output_end(&o, to) == 0 ? STATUS_DONE : STATUS_SYSTEM;
    }
    survey_free(&s);
    return finish(&b, a, status);
}

/* Every reel with its frames, in the sequence of slots and trees: an ancestor's frames come before a descendant's, so that a book
 * made from them never needs more nodes. */
static uint64_t dump(FILE *out, struct book *b, const struct survey *s) {
    uint64_t answer = REELBOOK_DONE, *frames, count;
    fprintf(out, DUMP_START "reels %" PRIu64 "\nnodes %" PRIu64 "\n", b->file.slots, b->file.nodes);
    for (size_t i = 0; i < s->count && answer == REELBOOK_DONE; i++) {
        answer = book_list(b, s->reels[i].reel, &frames, &count);
        if (answer != REELBOOK_DONE)
            break;
        fprintf(out, "reel %" PRIu64 "\n", s->reels[i].reel);
        for (uint64_t at = 0; at < count; at++)
            fprintf(out, "%" PRIu64 "\n", frames[at]);
        free(frames);
    }
    if (answer == REELBOOK_DONE)
        fputs(DUMP_END "\n", out);
    return answer;
}

int run_dump(const struct arguments *a) {
    struct book b;
    struct survey s;
    struct output o;
    const char *to = a->values[OPTION_OUTPUT];
    int status = begin_survey(&b, &s, a);
    if (status != STATUS_DONE)
        return status;
    status = output_begin(&o, to) == 0 ? STATUS_DONE : STATUS_SYSTEM;
    if (status == STATUS_DONE) {
        uint64_t answer = dump(o.stream, &b, &s);
        if (answer != REELBOOK_DONE) {
            output_drop(&o);
            status = refuse(answer, a->operands[0]);
        } else if (output_end(&o, to) != 0) {
            status = STATUS_SYSTEM;
        }
    }
    survey_free(&s);
    return finish(&b, a, status);
}

/* To standard output: are these bytes, which are no text, for a terminal? */
static int for_terminal(const char *to) {
    return (!to || strcmp(to, "-") == 0) && isatty(STDOUT_FILENO);
}

static int write_table(const struct book *b, const char *to) {
    struct output o;
    if (output_begin(&o, to) != 0)
        return STATUS_SYSTEM;
    own_table_write(o.stream, b->image);
    return output_end(&o, to) == 0 ? STATUS_DONE : STATUS_SYSTEM;
}

int run_table(const struct arguments *a) {
    struct book b;
    struct survey s;
    const char *to = a->values[OPTION_OUTPUT];
    if (for_terminal(to)) {
        say("a table is no text, and standard output is a terminal; -o OUT writes it to a file");
        return STATUS_USAGE;
    }
    int status = begin_survey(&b, &s, a);
    if (status != STATUS_DONE)
        return status;
    survey_free(&s);
    if (own_table_in(b.image)) {
        status = write_table(&b, to);
    } else {
        say("%s: no table of its own", a->operands[0]);
        status = STATUS_NO;
    }
    return finish(&b, a, status);
}
