/* A book with all its buffers, for the test programs: each call lends them, and its script is carried out. */
#ifndef BOOK_H
#define BOOK_H

#include "reelbook.h"

/* JUNK is each byte of what a call is lent and does not read: a 0 that is found there afterwards was written. */
enum { LIST_WORDS = 1024, JUNK = 0x5a };

struct book {
    uint64_t *image, *map, *scratch;
    size_t image_words, map_words;
    uint64_t heads[REELBOOK_HEADS_WORDS];
    uint64_t script[REELBOOK_SCRIPT_WORDS];
    uint64_t list[LIST_WORDS];
    uint64_t used, left, yes, nodes, count;
};

/* Checks, of which those that fail print a line. */
extern unsigned checks, failures;
void equal(uint64_t found, uint64_t expected, const char *what);

/* Memory, zeroed or of junk; the program ends if there is none. */
uint64_t *zeroed(size_t words);
uint64_t *junk(size_t words);

/* Xorshift: the same numbers in each run. */
uint64_t drawn(void);

/* Without a table. */
void book_format(struct book *b, uint64_t slots, uint64_t nodes);
void book_free(struct book *b);

/* What a book's fingerprints can go by: an edition with the library's table, or edition 2 with its own. */
enum { EDITION_1 = 1, EDITION_2 = 2, OWN_TABLE = 3 };

/* An own table: 256 bytes, each once. */
void own_table(uint8_t table[REELBOOK_TABLE_BYTES]);

/* Formatted with a table or without; then of this edition: an image without frames has no fingerprint by which they differ. */
void book_format_as(struct book *b, unsigned rule, uint64_t slots, uint64_t nodes);

/* A sound tree of reel 7 with one path down to the last level: node 0, then the first of each group of children. Level k has
 * frame k * 2^59 in place 0; all of these agree in bits 0 to 58, which are 0, so that they go to the first child each time. Four
 * nodes are left. */
enum { LAST_LEVEL = 31, DEEP_NODES = 1 + 3 * 2 + 28 * 4 + 4 };
void book_make_deep(struct book *b, unsigned rule);

/* The header's words that tell the rule, and a table where it needs one. */
void book_go_by(struct book *b, unsigned rule);

/* The specification's fingerprint of a frame. */
unsigned fingerprint(unsigned rule, uint64_t frame);

/* How many children a node of a level has, where it has any; the specification's child of a frame, bit by bit; and a frame that
 * goes to this child of the level, and to the first one at every other. */
uint64_t fanout(uint64_t level);
uint64_t child_of(uint64_t level, uint64_t frame);
uint64_t frame_to(uint64_t level, uint64_t number);

/* The operations, by their answers. */
uint64_t book_open(struct book *b, uint64_t reel);
uint64_t book_claim(struct book *b, uint64_t head, uint64_t reel, uint64_t frame);
uint64_t book_fill(struct book *b, uint64_t head);
uint64_t book_commit(struct book *b, uint64_t head);
uint64_t book_abandon(struct book *b, uint64_t head);
uint64_t book_remove(struct book *b, uint64_t reel, uint64_t frame);
uint64_t book_has(struct book *b, uint64_t reel, uint64_t frame);
uint64_t book_retire(struct book *b, uint64_t reel);
uint64_t book_tidy(struct book *b, uint64_t reel);
uint64_t book_list(struct book *b, size_t room, uint64_t reel);
uint64_t book_recover(struct book *b);

/* Head 1 adds frames to a reel: the first, first + step, and so on. */
void book_add(struct book *b, uint64_t reel, uint64_t first, uint64_t step, unsigned count);

/* One of the words of a slot, a node, a head's record; and the index in the image of a node's. */
uint64_t slot_word(const struct book *b, uint64_t slot, uint64_t word);
uint64_t node_word(const struct book *b, uint64_t node, uint64_t word);
uint64_t head_word(const struct book *b, uint64_t head, uint64_t word);
size_t node_index(const struct book *b, uint64_t node, uint64_t word);

#endif
