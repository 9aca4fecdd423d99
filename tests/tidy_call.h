/* A call of Tidy, with all that it is lent between pages that may not be touched; image and heads are read-only, and so is
 * whatever a refusal may not store to. Valid as C99 and as C++11. */
#ifndef TIDY_CALL_H
#define TIDY_CALL_H

#include "groups.h"
#include "lent.h"

/* Image, map and heads are copies of the book's; the others have junk in them. */
struct call {
    struct lent image, map, heads, scratch, script, used;
    uint64_t reel;
};

struct lengths {
    size_t image, map, scratch, script;
};

struct lengths right_lengths(const struct book *b);
void lend_call(struct call *c, const struct book *b, struct lengths l, uint64_t reel);
void call_back(struct call *c);

/* Calls, and looks at the answer, the count and the scratch map. */
void check_call(struct call *c, uint64_t due, const char *what);

/* After an answered one: the script stores 0 to the parent's next word and passes a barrier; the children are free in the map,
 * and all else is as before. Then the book is as the script leaves it. */
void check_given_back(struct call *c, struct book *b, const struct group *g);

/* One call, to which 0 or 18 is due, as the tree of the slot has an empty group or none. Gives that answer; what the group had is
 * given back. */
uint64_t tidy_once(struct book *b, uint64_t reel, uint64_t slot, const char *what);

#endif
