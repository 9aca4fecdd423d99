/* load: a book made from a dump. */
#define _POSIX_C_SOURCE 200809L
#include <ctype.h>
#include <errno.h>
#include <inttypes.h>
#include <stdio.h>
#include <stdlib.h>
#include <string.h>
#include <unistd.h>

#include "commands.h"
#include "frames.h"
#include "new_book.h"
#include "own_table.h"

/* The dump, line by line. */
struct text {
    FILE *in;
    const char *name;
    uint64_t line;  /* its number */
    char words[64]; /* the line, without white space around it; one that is too long ends in dots */
};

struct load {
    const struct arguments *arguments;
    struct text text;
    struct book book;
    uint8_t table[REELBOOK_TABLE_BYTES]; /* its own, if one is given */
    uint64_t reel, reels, frames;        /* the last reel; how many */
    struct progress progress;
};

/* What cannot be printed becomes a question mark. */
static size_t read_line(struct text *t) {
    static const char dots[] = "...";
    size_t length = 0;
    int c = getc(t->in);
    while (isblank(c))
        c = getc(t->in);
    for (; c != EOF && c != '\n'; c = getc(t->in))
        if (length < sizeof t->words)
            t->words[length++] = (char)(isprint(c) || isspace(c) ? c : '?');
    while (length > 0 && length < sizeof t->words && isspace((unsigned char)t->words[length - 1]))
        length--;
    if (length < sizeof t->words)
        t->words[length] = '\0';
    else
        memcpy(t->words + sizeof t->words - sizeof dots, dots, sizeof dots);
    t->line++;
    return length;
}

/* The next line that is neither empty nor a comment. 1, or 0 at the end. */
static int next_line(struct text *t) {
    while (!feof(t->in) && !ferror(t->in))
        if (read_line(t) > 0 && t->words[0] != '#')
            return !ferror(t->in);
    return 0;
}

/* 1 if the line is `key NUMBER`, or, with an empty key, a number. */
static int is_number_of(const struct text *t, const char *key, uint64_t *number) {
    size_t length = strlen(key);
    if (strncmp(t->words, key, length) != 0)
        return 0;
    const char *rest = t->words + length;
    while (length > 0 && isblank((unsigned char)*rest))
        rest++;
    return (length == 0 || rest > t->words + length) && number_in(rest, number);
}

static int not_a_line(const struct text *t, const char *wanted) {
    say("%s: line %" PRIu64 ": '%s' is not %s; a number is one from 0 to %" PRIu64 " in decimal without leading zeros", t->name,
        t->line, t->words, wanted, UINT64_MAX);
    return STATUS_USAGE;
}

static int ended_early(const struct text *t) {
    if (ferror(t->in)) {
        say("%s: %s", t->name, strerror(errno));
        return STATUS_SYSTEM;
    }
    say("%s: ends without a line '" DUMP_END "': not a whole dump", t->name);
    return STATUS_USAGE;
}

/* How much room the book had, unless it is to have other. */
static int read_room(struct text *t, uint64_t *reels, uint64_t *nodes) {
    if (!next_line(t))
        return ended_early(t);
    if (strncmp(t->words, DUMP_START, strlen(DUMP_START) - 1) != 0 || strlen(t->words) != strlen(DUMP_START) - 1) {
        say("%s: not a dump of a reel book: it does not start with %.*s", t->name, (int)strlen(DUMP_START) - 1, DUMP_START);
        return STATUS_USAGE;
    }
    if (!next_line(t))
        return ended_early(t);
    if (!is_number_of(t, "reels", reels))
        return not_a_line(t, "'reels NUMBER'");
    if (!next_line(t))
        return ended_early(t);
    return is_number_of(t, "nodes", nodes) ? STATUS_DONE : not_a_line(t, "'nodes NUMBER'");
}

static int refuse_line(const struct load *l, uint64_t answer, uint64_t reel, const uint64_t *frame) {
    char about[48] = "";
    if (frame)
        snprintf(about, sizeof about, " frame %" PRIu64 ":", *frame);
    say("%s: line %" PRIu64 ": reel %" PRIu64 ":%s %s", l->text.name, l->text.line, reel, about, answer_words(answer));
    return answer_status(answer);
}

/* A line after the head: a reel, or a frame of the last one. */
static int load_line(struct load *l) {
    uint64_t number, answer;
    if (is_number_of(&l->text, "reel", &number)) {
        answer = book_open_reel(&l->book, number);
        l->reel = number;
        l->reels++;
        return answer == REELBOOK_DONE ? STATUS_DONE : refuse_line(l, answer, number, NULL);
    }
    if (l->reels == 0 || !is_number_of(&l->text, "", &number))
        return not_a_line(&l->text, l->reels == 0 ? "'reel NUMBER'" : "a frame's number, 'reel NUMBER' or '" DUMP_END "'");
    answer = book_add(&l->book, l->reel, number);
    if (answer != REELBOOK_DONE)
        return refuse_line(l, answer, l->reel, &number);
    progress_show(&l->progress, ++l->frames);
    return STATUS_DONE;
}

static int load_lines(struct load *l) {
    int status = STATUS_DONE;
    while (status == STATUS_DONE) {
        if (!next_line(&l->text))
            return ended_early(&l->text);
        if (strcmp(l->text.words, DUMP_END) == 0)
            break;
        status = load_line(l);
    }
    if (status == STATUS_DONE && next_line(&l->text))
        status = not_a_line(&l->text, "the end, which the line before it is");
    return status == STATUS_DONE && ferror(l->text.in) ? ended_early(&l->text) : status;
}

/* Nobody knows the book before it is whole, so one barrier at the end is enough. */
static int fill(void *context, const char *path) {
    struct load *l = (struct load *)context;
    const struct arguments *a = l->arguments;
    uint64_t answer = book_open(&l->book, path, BOOK_WRITE, NULL, a->module, a->until);
    if (answer != REELBOOK_DONE)
        return refuse(answer, a->operands[0]);
    progress_begin(&l->progress, a->values[OPTION_PROGRESS] != NULL, a->values[OPTION_RATE] != NULL);
    book_unsettle(&l->book);
    int status = load_lines(l);
    answer = book_settle(&l->book);
    if (status == STATUS_DONE && answer != REELBOOK_DONE)
        status = refuse(answer, a->operands[0]);
    progress_end(&l->progress, l->frames);
    return finish(&l->book, a, status);
}

static int load_from(struct load *l, const struct arguments *a) {
    uint64_t reels, nodes;
    if (!a->values[OPTION_FORCE] && access(a->operands[0], F_OK) == 0)
        return refuse(BOOK_EXISTS, a->operands[0]);
    int status = a->values[OPTION_TABLE] ? own_table_read(l->table, a->values[OPTION_TABLE]) : STATUS_DONE;
    if (status == STATUS_DONE)
        status = read_room(&l->text, &reels, &nodes);
    if (status != STATUS_DONE)
        return status;
    reels = a->values[OPTION_REELS] ? a->numbers[OPTION_REELS] : reels;
    nodes = a->values[OPTION_NODES] ? a->numbers[OPTION_NODES] : nodes;
    if (room_out_of_range(reels, nodes))
        return STATUS_USAGE;
    const struct new_book n = {.path = a->operands[0],
                               .slots = reels,
                               .nodes = nodes,
                               .table = a->values[OPTION_TABLE] ? l->table : NULL,
                               .force = a->values[OPTION_FORCE] != NULL,
                               .taken = BOOK_EXISTS,
                               .module = a->module,
                               .until = a->until};
    status = new_book_make(&n, fill, l);
    if (status == STATUS_DONE)
        printf("%" PRIu64 " reel%s, %" PRIu64 " frame%s loaded\n", l->reels, l->reels == 1 ? "" : "s", l->frames,
               l->frames == 1 ? "" : "s");
    return status;
}

int run_load(const struct arguments *a) {
    struct load l = {.arguments = a, .text = {.in = stdin, .name = "standard input"}};
    int from_file = a->count > 1 && strcmp(a->operands[1], "-") != 0;
    if (!from_file && a->values[OPTION_TABLE] && strcmp(a->values[OPTION_TABLE], "-") == 0) {
        say("--table: - only where the dump is in a file");
        return STATUS_USAGE;
    }
    if (from_file) {
        l.text.name = a->operands[1];
        l.text.in = fopen(l.text.name, "r");
    }
    if (!l.text.in) {
        say("%s: %s", l.text.name, strerror(errno));
        return STATUS_SYSTEM;
    }
    int status = load_from(&l, a);
    if (from_file)
        fclose(l.text.in);
    return status;
}
