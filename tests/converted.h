/* What Convert has to write, by the words of the specification and apart from the library. Valid as C99 and as C++11. */
#ifndef CONVERTED_H
#define CONVERTED_H

#include "book.h"

/* A book with reels of one node and of several, and with everything that a conversion drops: claims open and filled, frames that
 * were removed, a reel that was retired, and junk in each word that is not read. The second of its slots and the last are empty.
 * It goes by a rule of book.h. */
enum { CONVERTED_REELS = 4, CONVERTED_NODES = 40, FIRST_REEL = 7, OTHER_REEL = 9 };
void make_stale(struct book *b, unsigned rule);

/* In how many words the copy, as long as the image, is not what this sound image becomes. */
uint64_t differs(const uint64_t *copy, const uint64_t *image, size_t words);

#endif
