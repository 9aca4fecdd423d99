/* convert: a book of the other edition made from a book. */
#define _POSIX_C_SOURCE 200809L
#include <stdio.h>
#include <unistd.h>

#include "commands.h"
#include "form.h"
#include "new_book.h"

struct conversion {
    const struct arguments *arguments;
    struct book old;                 /* a private copy of its file */
    uint64_t edition, reels, frames; /* of the new book */
};

enum { CONVERT_FIELDS = 4 };

static const char *plural(uint64_t count) {
    return count == 1 ? "" : "s";
}

static void print_conversion(const struct conversion *c) {
    const struct field fields[CONVERT_FIELDS] = {
        {"from_edition", c->old.image[REELBOOK_EDITION_AT]},
        {"to_edition", c->edition},
        {"reels", c->reels},
        {"frames", c->frames},
    };
    enum form form = form_of(c->arguments);
    if (form == FORM_LINES) {
        printf("%" PRIu64 " reel%s, %" PRIu64 " frame%s converted from edition %" PRIu64 " to edition %" PRIu64 "\n", c->reels,
               plural(c->reels), c->frames, plural(c->frames), fields[0].value, c->edition);
        return;
    }
    if (form == FORM_CSV)
        print_names(fields, CONVERT_FIELDS);
    print_fields(form, fields, CONVERT_FIELDS);
    if (form == FORM_JSON)
        puts("}");
}

/* The new book is counted, and not the old one: that is what there is then. */
static int count(struct conversion *c, const struct book *b) {
    struct survey s;
    uint64_t answer = survey_take(&s, b);
    if (answer != REELBOOK_DONE)
        return refuse(answer, c->arguments->operands[1]);
    c->edition = b->image[REELBOOK_EDITION_AT];
    c->reels = s.count;
    c->frames = s.total.frames;
    survey_free(&s);
    return STATUS_DONE;
}

/* A refusal is about the old book. */
static int convert(void *context, const char *path) {
    struct conversion *c = (struct conversion *)context;
    struct book b;
    uint64_t answer = book_open(&b, path, BOOK_WRITE, NULL, c->arguments->module, c->arguments->until);
    if (answer != REELBOOK_DONE)
        return refuse(answer, c->arguments->operands[1]);
    answer = book_convert(&c->old, &b);
    int refused = answer_status(answer) == STATUS_REFUSED;
    int status = answer == REELBOOK_DONE ? count(c, &b) : refuse(answer, c->arguments->operands[refused ? 0 : 1]);
    answer = book_close(&b);
    return status == STATUS_DONE && answer != REELBOOK_DONE ? refuse(answer, c->arguments->operands[1]) : status;
}

/* The old book is only read: one that was not closed cleanly is as sound as any, and stays as it is. */
int run_convert(const struct arguments *a) {
    struct conversion c = {.arguments = a};
    if (access(a->operands[1], F_OK) == 0)
        return refuse(BOOK_KEPT, a->operands[1]);
    int status = begin(&c.old, a, BOOK_COPY);
    if (status != STATUS_DONE)
        return status;
    const struct new_book n = {
        .path = a->operands[1], .slots = c.old.file.slots, .nodes = c.old.file.nodes, .taken = BOOK_KEPT, .module = a->module,
        .until = a->until};
    status = new_book_make(&n, convert, &c);
    if (status == STATUS_DONE && c.old.unclean)
        say("%s: not closed cleanly; it is left so, and %s is as after a recovery", a->operands[0], a->operands[1]);
    if (status == STATUS_DONE)
        print_conversion(&c);
    return finish(&c.old, a, status);
}
