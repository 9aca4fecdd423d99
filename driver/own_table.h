/* A book's own table, by which its fingerprints go: in a file, and in an image. */
#ifndef OWN_TABLE_H
#define OWN_TABLE_H

#include <stdio.h>

#include "answers.h"

/* Reads one from a file, or, if `path` is -, from standard input: 256 bytes, each value once, and nothing more. STATUS_DONE, or
 * the exit status after a line on standard error. */
int own_table_read(uint8_t table[REELBOOK_TABLE_BYTES], const char *path);

/* Has an image that is sound its own table? */
int own_table_in(const uint64_t *image);

/* Writes that of an image that has one. */
void own_table_write(FILE *out, const uint64_t *image);

/* An answer of the library about an image: a 4 for its table becomes a number of answers.h, and one for a tree stays. */
uint64_t own_table_answer(const uint64_t *image, uint64_t answer);

#endif
