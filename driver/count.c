/* The commands that count. */
#include <inttypes.h>
#include <stdio.h>

#include "commands.h"
#include "form.h"
#include "own_table.h"

enum { REEL_FIELDS = 10, BOOK_FIELDS = 12, BRIEF_FIELDS = 3 };

static void reel_fields(struct field f[REEL_FIELDS], const struct survey_reel *r) {
    const struct field fields[REEL_FIELDS] = {
        {"reel", r->reel},         {"slot", r->slot},       {"root", r->root},           {"frames", r->total.frames},
        {"nodes", r->total.nodes}, {"deepest", r->deepest}, {"places", r->total.places}, {"located", r->total.located},
        {"longest_path", survey_path(r)}, {"tidy_frees", r->to_free},
    };
    for (int i = 0; i < REEL_FIELDS; i++)
        f[i] = fields[i];
}

static void brief_fields(struct field f[BRIEF_FIELDS], const struct survey_reel *r) {
    f[0] = (struct field){"reel", r->reel};
    f[1] = (struct field){"frames", r->total.frames};
    f[2] = (struct field){"nodes", r->total.nodes};
}

typedef void fields_of(struct field *f, const struct survey_reel *r);

/* Every reel's fields: lines of CSV, or an array of JSON. */
static void print_each(enum form form, const struct survey *s, fields_of *fields, size_t count) {
    struct field f[REEL_FIELDS];
    static const struct survey_reel none;
    fields(f, &none);
    if (form == FORM_CSV)
        print_names(f, count);
    else
        putchar('[');
    for (size_t i = 0; i < s->count; i++) {
        fields(f, &s->reels[i]);
        if (form == FORM_JSON && i > 0)
            fputs(",\n", stdout);
        print_fields(form, f, count);
        if (form == FORM_JSON)
            putchar('}');
    }
    if (form == FORM_JSON)
        putchar(']');
}

static void print_table(const struct survey *s) {
    printf("\n%20s %5s %6s %8s %6s %8s %8s %8s %8s %6s\n", "reel", "slot", "root", "frames", "nodes", "deepest", "places",
           "located", "longest", "tidy");
    for (size_t i = 0; i < s->count; i++) {
        const struct survey_reel *r = &s->reels[i];
        const struct tally *t = &r->total;
        printf("%20" PRIu64 " %5" PRIu64 " %6" PRIu64 " %8" PRIu64 " %6" PRIu64 " %8u %8" PRIu64 " %8" PRIu64 " %8" PRIu64
               " %6" PRIu64 "\n",
               r->reel, r->slot, r->root, t->frames, t->nodes, r->deepest, t->places, t->located, survey_path(r), r->to_free);
    }
}

static void print_lines(const struct book *b, const struct survey *s, int by_reel) {
    uint64_t longest = survey_longest_path(s);
    printf("reels    %zu of %" PRIu64 "\n", s->count, b->file.slots);
    printf("frames   %" PRIu64 "\n", s->total.frames);
    printf("nodes    %" PRIu64 " used, %" PRIu64 " free\n", s->total.nodes, b->file.nodes - s->total.nodes);
    printf("tidy     frees %" PRIu64 " nodes\n", s->to_free);
    printf("deepest  level %u\n", s->deepest);
    printf("longest  path of %" PRIu64 " node%s\n", longest, longest == 1 ? "" : "s");
    printf("places   %" PRIu64 ", %" PRIu64 " used, %" PRIu64 " located\n", s->total.places, s->total.frames, s->total.located);
    printf("edition  %" PRIu64 "\n", b->image[REELBOOK_EDITION_AT]);
    printf("table    %s\n", own_table_in(b->image) ? "the book's own" : "the library's");
    if (by_reel)
        print_table(s);
}

/* By reel, CSV has the reels alone: a table has one kind of line. JSON has both. */
static void print_for_program(enum form form, const struct book *b, const struct survey *s, int by_reel) {
    const struct field fields[BOOK_FIELDS] = {
        {"slots", b->file.slots},
        {"reels", s->count},
        {"frames", s->total.frames},
        {"nodes_used", s->total.nodes},
        {"nodes_free", b->file.nodes - s->total.nodes},
        {"deepest", s->deepest},
        {"places", s->total.places},
        {"located", s->total.located},
        {"edition", b->image[REELBOOK_EDITION_AT]},
        {"own_table", (uint64_t)own_table_in(b->image)},
        {"longest_path", survey_longest_path(s)},
        {"tidy_frees", s->to_free},
    };
    if (form == FORM_CSV && by_reel) {
        print_each(form, s, reel_fields, REEL_FIELDS);
        return;
    }
    if (form == FORM_CSV)
        print_names(fields, BOOK_FIELDS);
    print_fields(form, fields, BOOK_FIELDS);
    if (form == FORM_JSON && by_reel) {
        fputs(",\n\"by_reel\":", stdout);
        print_each(form, s, reel_fields, REEL_FIELDS);
    }
    if (form == FORM_JSON)
        puts("}");
}

int run_stat(const struct arguments *a) {
    struct book b;
    struct survey s;
    int by_reel = a->values[OPTION_BY_REEL] != NULL, status = begin_survey(&b, &s, a);
    if (status != STATUS_DONE)
        return status;
    if (form_of(a) == FORM_LINES)
        print_lines(&b, &s, by_reel);
    else
        print_for_program(form_of(a), &b, &s, by_reel);
    survey_free(&s);
    return finish(&b, a, STATUS_DONE);
}

static void print_brief(const struct survey *s) {
    for (size_t i = 0; i < s->count; i++) {
        const struct tally *t = &s->reels[i].total;
        printf("reel %" PRIu64 ": %" PRIu64 " frame%s, %" PRIu64 " node%s\n", s->reels[i].reel, t->frames,
               t->frames == 1 ? "" : "s", t->nodes, t->nodes == 1 ? "" : "s");
    }
}

int run_reels(const struct arguments *a) {
    struct book b;
    struct survey s;
    int status = begin_survey(&b, &s, a);
    if (status != STATUS_DONE)
        return status;
    if (form_of(a) == FORM_LINES)
        print_brief(&s);
    else
        print_each(form_of(a), &s, brief_fields, BRIEF_FIELDS);
    if (form_of(a) == FORM_JSON)
        putchar('\n');
    survey_free(&s);
    return finish(&b, a, STATUS_DONE);
}
