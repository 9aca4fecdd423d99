/* Scripts carried out. */
#ifndef CARRY_H
#define CARRY_H

#include "medium.h"

/* Carries out a script as an operation wrote it or as it was translated for a module: every store by itself, every line flush and
 * every barrier where it stands. The image starts at word `image_at` of the mapping, with a line. 0, or -1 with errno: then a
 * barrier failed, and only recovery can tell what is lasting. */
int carry_out(struct medium *m, size_t image_at, const uint64_t *script, size_t words);

/* Entries of scripts, by their kinds. */
struct entries {
    uint64_t stores, flushes, barriers;
};

/* Adds a script's. */
void count_entries(struct entries *e, const uint64_t *script, size_t words);

#endif
