/* The commands that write. */
#include <inttypes.h>
#include <stdio.h>

#include "commands.h"
#include "frames.h"
#include "own_table.h"
#include "survey.h"

static int out_of_range(const char *name, uint64_t number, uint64_t most) {
    if (number >= 1 && number <= most)
        return 0;
    say("%s: from 1 to %" PRIu64, name, most);
    return 1;
}

int room_out_of_range(uint64_t reels, uint64_t nodes) {
    return out_of_range("--reels", reels, REELBOOK_MAX_SLOTS) || out_of_range("--nodes", nodes, REELBOOK_MAX_NODES);
}

int run_format(const struct arguments *a) {
    uint64_t reels = a->numbers[OPTION_REELS], nodes = a->numbers[OPTION_NODES];
    const char *path = a->values[OPTION_TABLE];
    uint8_t table[REELBOOK_TABLE_BYTES];
    if (room_out_of_range(reels, nodes))
        return STATUS_USAGE;
    int status = path ? own_table_read(table, path) : STATUS_DONE;
    if (status != STATUS_DONE)
        return status;
    uint64_t answer =
        book_format(a->operands[0], reels, nodes, path ? table : NULL, a->values[OPTION_FORCE] != NULL, a->module, a->until);
    return answer == REELBOOK_DONE ? STATUS_DONE : refuse(answer, a->operands[0]);
}

/* Opens the book to be written, for the reel that the second operand names. 0, or the exit status. */
static int begin_reel(struct book *b, const struct arguments *a, uint64_t *reel) {
    return arguments_number(a->operands[1], reel) == 0 ? begin(b, a, BOOK_WRITE) : STATUS_USAGE;
}

static int on_reel(const struct arguments *a, uint64_t (*operation)(struct book *, uint64_t)) {
    struct book b;
    uint64_t reel;
    int status = begin_reel(&b, a, &reel);
    if (status != STATUS_DONE)
        return status;
    uint64_t answer = operation(&b, reel);
    return finish(&b, a, answer == REELBOOK_DONE ? STATUS_DONE : refuse_reel(answer, reel));
}

int run_open(const struct arguments *a) {
    return on_reel(a, book_open_reel);
}

int run_retire(const struct arguments *a) {
    return on_reel(a, book_retire);
}

/* Each group is lasting by itself: an interrupt ends it between two of them. */
static uint64_t tidy_all(struct book *b, uint64_t reel, uint64_t *freed) {
    uint64_t answer = REELBOOK_DONE;
    frames_catch_interrupt();
    while (answer == REELBOOK_DONE && !frames_interrupted())
        answer = book_tidy(b, reel, freed);
    return answer;
}

/* 18 is the end: no group is left. Without a refusal it was interrupted. */
static int report_tidy(uint64_t answer, uint64_t reel, uint64_t freed) {
    if (answer == REELBOOK_DONE) {
        say("interrupted; %" PRIu64 " nodes freed", freed);
        return STATUS_SYSTEM;
    }
    if (answer != REELBOOK_NO_EMPTY_GROUP)
        return refuse_reel(answer, reel);
    printf("%" PRIu64 " nodes freed\n", freed);
    return STATUS_DONE;
}

int run_tidy(const struct arguments *a) {
    struct book b;
    uint64_t reel, freed = 0;
    int status = begin_reel(&b, a, &reel);
    if (status != STATUS_DONE)
        return status;
    uint64_t answer = tidy_all(&b, reel, &freed);
    return finish(&b, a, report_tidy(answer, reel, freed));
}

struct job {
    uint64_t (*operation)(struct book *, uint64_t, uint64_t);
    const char *done_name; /* "added" */
    int warns;             /* of a full node, the first time */
    uint64_t reel, done, held;
};

/* "2 frames added, 1 held already" */
static const char *summary(const struct job *j) {
    static char text[80];
    int length = snprintf(text, sizeof text, "%" PRIu64 " frame%s %s", j->done, j->done == 1 ? "" : "s", j->done_name);
    if (j->held > 0)
        snprintf(text + length, sizeof text - (size_t)length, ", %" PRIu64 " held already", j->held);
    return text;
}

/* Once in a run: where many frames are added, nodes fill one after the other. */
static void warn_if_full(const struct book *b, struct job *j, uint64_t frame, struct progress *p) {
    if (!j->warns || b->left > 0)
        return;
    j->warns = 0;
    progress_interrupt(p);
    say("reel %" PRIu64 ": frame %" PRIu64 " fills its node: no clear place is left in it, and the next frame there takes a"
        " larger node or one below it, new if need be",
        j->reel, frame);
}

/* Goes on to the first frame that is refused, and answers with that refusal. */
static uint64_t do_frames(struct book *b, const struct arguments *a, struct job *j, struct frames *f) {
    struct progress p;
    uint64_t answer = REELBOOK_DONE;
    progress_begin(&p, a->values[OPTION_PROGRESS] != NULL, a->values[OPTION_RATE] != NULL);
    while (answer == REELBOOK_DONE && frames_next(f)) {
        answer = j->operation(b, j->reel, f->frame);
        if (answer == REELBOOK_DONE) {
            j->done++;
            warn_if_full(b, j, f->frame, &p);
        } else if (answer == REELBOOK_FRAME_HELD && a->values[OPTION_SKIP_HELD]) {
            j->held++;
            answer = REELBOOK_DONE;
        }
        progress_show(&p, j->done + j->held);
    }
    progress_end(&p, j->done + j->held);
    return answer;
}

static int report(const struct job *j, const struct frames *f, uint64_t answer) {
    if (answer != REELBOOK_DONE) {
        say("reel %" PRIu64 ": frame %" PRIu64 ": %s; %s before it", j->reel, f->frame, answer_words(answer), summary(j));
        return answer_status(answer);
    }
    if (f->error[0]) {
        say("%s; %s before it", f->error, summary(j));
        return f->status;
    }
    if (frames_interrupted()) {
        say("interrupted; %s", summary(j));
        return STATUS_SYSTEM;
    }
    puts(summary(j));
    return STATUS_DONE;
}

/* The frames on the command line are all read before the first is done; Has tells whether there is such a reel, even if no frame
 * comes. */
static int on_frames(const struct arguments *a, struct job j) {
    struct book b;
    struct frames f;
    uint64_t yes, nodes;
    if (arguments_number(a->operands[1], &j.reel) != 0 || frames_begin(&f, a->operands + 2, a->count - 2) != 0)
        return STATUS_USAGE;
    int status = begin(&b, a, BOOK_WRITE);
    if (status != STATUS_DONE)
        return status;
    uint64_t answer = book_has(&b, j.reel, 0, &yes, &nodes);
    if (answer != REELBOOK_DONE)
        return finish(&b, a, refuse_reel(answer, j.reel));
    frames_catch_interrupt();
    answer = do_frames(&b, a, &j, &f);
    return finish(&b, a, report(&j, &f, answer));
}

int run_add(const struct arguments *a) {
    return on_frames(a, (struct job){.operation = book_add, .done_name = "added", .warns = 1});
}

int run_remove(const struct arguments *a) {
    return on_frames(a, (struct job){.operation = book_remove, .done_name = "removed"});
}

int run_recover(const struct arguments *a) {
    struct book b;
    struct survey s;
    int status = begin(&b, a, BOOK_RECOVER);
    if (status != STATUS_DONE)
        return status;
    uint64_t answer = survey_take(&s, &b);
    if (answer != REELBOOK_DONE)
        return finish(&b, a, refuse(answer, a->operands[0]));
    printf("%s; reels: %zu, frames: %" PRIu64 ", locate words mended: %zu\n", b.unclean ? "not closed cleanly" : "closed cleanly",
           s.count, s.total.frames, b.mended);
    survey_free(&s);
    return finish(&b, a, STATUS_DONE);
}
