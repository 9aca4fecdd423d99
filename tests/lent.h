/* Memory to lend, for the test programs: between pages that nobody may touch, and read-only where a call may not store to it. A
 * fault ends the program, with a line that says what was checked. Valid as C99 and as C++11. */
#ifndef LENT_H
#define LENT_H

#include "book.h"

struct lent {
    uint64_t *words; /* NULL if there are none */
    size_t count;
    char *pages;
    size_t bytes;
};

/* So many words of junk, the last of them at the end of a page. */
void lend(struct lent *l, size_t count);
void lent_read_only(const struct lent *l);
void lent_writable(const struct lent *l);

/* Checks that what is before the words, in their page, is as it was. */
void lent_back(struct lent *l);

/* The length to lend: the right one, or where it is to be wrong one word less, one more, or none. */
size_t lent_length(size_t right, int wrong, unsigned variant);

/* What is checked from now on. */
void lent_for(const char *what);

#endif
