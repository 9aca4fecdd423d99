/* The forms of an answer: lines for people, JSON or CSV for programs. */
#ifndef FORM_H
#define FORM_H

#include <stddef.h>
#include <stdint.h>

#include "arguments.h"

enum form { FORM_LINES, FORM_JSON, FORM_CSV };

static inline enum form form_of(const struct arguments *a) {
    return a->values[OPTION_JSON] ? FORM_JSON : a->values[OPTION_CSV] ? FORM_CSV : FORM_LINES;
}

/* A number under its name. */
struct field {
    const char *name;
    uint64_t value;
};

/* The names as CSV's first line; the numbers as a line of CSV, or as an object of JSON that is still open. */
void print_names(const struct field *fields, size_t count);
void print_fields(enum form form, const struct field *fields, size_t count);

void print_list(enum form form, uint64_t reel, const uint64_t *frames, uint64_t count);

#endif
