/* What was measured, and the tables made of it. */
#ifndef REPORT_H
#define REPORT_H

#include "work.h"

#include <stdio.h>

enum { MAX_COLUMNS = 12 };

/* Nanoseconds for an operation; LIST: for a frame, RECOVERY: for the whole store. */
struct result {
    const char *name;
    size_t frames;
    uint64_t edition, edition_before; /* of the images, and of the earlier build's; equal where there is none */
    size_t repetitions[ROWS];
    double times[ROWS][MAX_COLUMNS][REPETITIONS];
    double bytes[MAX_COLUMNS];
};

struct report {
    const struct column *columns;
    size_t column_count;
    const struct result *results;
    size_t result_count;
};

void print_tables(const struct report *r);
void print_aims(const struct report *r);

/* One line for each result, row and column, and for each ratio that has an aim. */
void write_tsv(const struct report *r, FILE *file);

extern const char *const row_names[ROWS];

#endif
