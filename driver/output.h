/* Output to a file that is written whole or not at all: it takes its name when it is whole. What is no regular file, a pipe or a
 * terminal, is written to itself. */
#ifndef OUTPUT_H
#define OUTPUT_H

#include <stdio.h>

struct output {
    FILE *stream;
    char *target, *temporary; /* NULL where the stream is the target */
};

/* To the file `to`, or, if that is NULL or -, to standard output. A book is not overwritten. 0, or -1 after a line on standard
 * error. */
int output_begin(struct output *o, const char *to);

/* The same. What standard output says is left to the end of the process. */
int output_end(struct output *o, const char *to);

/* Ends it and leaves no file. */
void output_drop(struct output *o);

#endif
