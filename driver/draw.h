/* A picture of a book, in SVG. */
#ifndef DRAW_H
#define DRAW_H

#include <stdio.h>

#include "survey.h"
#include "svg.h"

enum { DRAW_WIDTH = 1200, DRAW_MARGIN = 40, DRAW_INNER = DRAW_WIDTH - 2 * DRAW_MARGIN };

struct picture {
    FILE *out; /* NULL while it is measured */
    const struct book *book;
    const struct survey *survey;
};

void draw(FILE *out, const struct book *b, const struct survey *s, const char *path);

/* A node: a box in its reel's colour, filled from below as its places are, with numbers where there is room. */
void draw_node(const struct picture *p, uint64_t node, struct box box);

/* A square in a reel's colour. */
void draw_swatch(const struct picture *p, size_t reel, double x, double y);

/* How much of the places is held, from 0 to 1. */
double draw_fill(const struct tally *t);

/* The pool, the trees, from y down: each node, or, where there are too many, a summary. Each answers where it ends. */
double draw_pool(const struct picture *p, double y);
double draw_trees(const struct picture *p, double y);

/* Is each node drawn as a box? */
int draw_pool_whole(uint64_t nodes);
int draw_trees_whole(const struct survey *s);

#endif
