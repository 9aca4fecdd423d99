/* SVG, written piece by piece. Without a stream nothing is written: a picture is so measured before it is drawn. */
#ifndef SVG_H
#define SVG_H

#include <stddef.h>
#include <stdio.h>

/* The title, as any text here, is in UTF-8 and has no control characters. */
void svg_begin(FILE *out, double width, double height, const char *title);
void svg_end(FILE *out);

void svg_put(FILE *out, const char *format, ...) __attribute__((format(printf, 2, 3)));

struct box {
    double x, y, width, height;
};

/* A rectangle with attributes as of printf(). */
void svg_rect(FILE *out, struct box b, const char *attributes, ...) __attribute__((format(printf, 3, 4)));

/* Text of one of the classes in svg.c, its baseline at y. */
void svg_text(FILE *out, double x, double y, const char *class, const char *format, ...) __attribute__((format(printf, 5, 6)));

/* The colour of the n-th of many things, mixed with white: 0 is white, 1 is the pure colour. */
struct svg_colour {
    char text[8];
};
struct svg_colour svg_colour(size_t n, double strength);

#endif
