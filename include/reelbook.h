/* The reel book: sets of 64-bit frames per reel, in a suffix bit tree in persistent memory.
 *
 * Every function takes its arguments as words. A slice is a pointer and a length in words, that of a table in bytes; with length
 * 0 the pointer may be NULL. No buffer, nor the place of a number handed back, may overlap another, and no such place is NULL.
 * Nobody else writes image, map or heads meanwhile. A function answers REELBOOK_DONE or the number of its refusal: its refusals
 * are tried in the sequence given with it, the first that applies is the answer, every count handed back is then 0, and nothing
 * lent has changed except as said. Contents and lengths may be anything: no call is out of bounds or without end.
 *
 * A function with a script stores nothing to the image. It writes entries of two words to the script's start and their number of
 * words to *used; the caller carries them out in their sequence before the next call: a store (word index, value) is one aligned
 * 8-byte store to that word of the image, a barrier (REELBOOK_BARRIER, 0) returns when every store before it is lasting. What the
 * operation does is lasting when its last barrier has passed; after a power failure before that, recovery finds all of it or
 * nothing of it. Map and heads have changed when the function returns, and are lost in a power failure.
 *
 * docs/DRIVER.md shows the whole loop. */
#ifndef REELBOOK_H
#define REELBOOK_H

#include <stddef.h>
#include <stdint.h>

/* The library is machine code for this platform alone. */
#if !defined(__x86_64__) || !defined(__ELF__) || SIZE_MAX != UINT64_MAX
#error "reelbook: x86-64 with a size_t of 64 bits and the System V calling convention (Linux) only"
#endif

/* The version of this header, and of the library beside which it is installed. With another major number the interface is
 * another: a program has to be compiled anew, and the shared object has another name. */
#define REELBOOK_VERSION_MAJOR 5
#define REELBOOK_VERSION_MINOR 2
#define REELBOOK_VERSION_PATCH 0
#define REELBOOK_VERSION "5.2.0"

#ifdef __cplusplus
extern "C" {
#endif

/* Answers; reelbook_answer_text has each in words. There is no 15. */
enum {
    REELBOOK_DONE = 0,
    REELBOOK_BAD_IMAGE = 1,      /* the image's length, its number of slots or of nodes, or the copy's length is wrong */
    REELBOOK_BAD_EDITION = 2,    /* the image's edition is neither 1 nor 2 */
    REELBOOK_BAD_BUFFER = 3,     /* map or scratch map is not of the map's length; a script is too short, or is none */
    REELBOOK_MALFORMED = 4,      /* the tree or the image's own table is malformed, or a head's node or place is outside */
    REELBOOK_NO_REEL = 5,        /* no such reel */
    REELBOOK_ALREADY_OPEN = 6,   /* the reel is open already */
    REELBOOK_NO_SLOT = 7,        /* no empty reel slot */
    REELBOOK_NO_RUN = 8,         /* not enough adjacent free nodes */
    REELBOOK_FRAME_HELD = 9,     /* the reel holds the frame already */
    REELBOOK_NOT_HELD = 10,      /* the reel does not hold the frame */
    REELBOOK_BAD_HEAD = 11,      /* no such head */
    REELBOOK_WRONG_STATE = 12,   /* the head is in another state than the operation needs */
    REELBOOK_BUSY = 13,          /* another head has this frame or is at this node (Claim); a claim is open in this reel (else) */
    REELBOOK_LIST_SHORT = 14,    /* the list has too little room */
    REELBOOK_BAD_TABLE = 16,     /* the given table is not 256 bytes long, or lacks some byte */
    REELBOOK_HAS_OWN_TABLE = 17, /* the image has its own table, which can't go to edition 1 */
    REELBOOK_NO_EMPTY_GROUP = 18 /* no node of the reel has children that are all empty */
};

/* Scripts. No operation writes more words than the minimum that it asks for. */
#define REELBOOK_BARRIER UINT64_MAX
#define REELBOOK_SCRIPT_WORDS 50

/* The scripts of a module with line flushes, which reelbook_translate writes, have a third entry: (REELBOOK_FLUSH, line). A flush
 * is never a store, however long an image is. The line of a word is its index in the image divided by REELBOOK_LINE_WORDS. */
#define REELBOOK_FLUSH (UINT64_MAX - 1)
#define REELBOOK_LINE_WORDS 8
#define REELBOOK_MODULE_WORDS 98

/* The image: word 0 is the edition, 1 the number of slots, 2 that of nodes. A frame's fingerprint folds its four low bytes in
 * edition 1, all eight in edition 2: from h = 0 on, for each byte, lowest first, h becomes entry h ^ byte of a table. Every
 * function reads both editions, each by its rule. reelbook_format writes REELBOOK_EDITION, also over an image of edition 1; no
 * other operation changes a word of the header, and reelbook_convert makes a second image, of the other edition. Libraries before
 * 3.1 write edition 1 and refuse 2. Do not compare an image's edition with REELBOOK_EDITION, which changes: refusal 2 tells
 * whether it is known. */
#define REELBOOK_EDITION_1 1
#define REELBOOK_EDITION_2 2
#define REELBOOK_EDITION REELBOOK_EDITION_2
#define REELBOOK_EDITION_AT 0
#define REELBOOK_SLOTS_AT 1
#define REELBOOK_NODES_AT 2
#define REELBOOK_HEADER_WORDS 64
#define REELBOOK_MAX_SLOTS 4096
#define REELBOOK_MAX_NODES 65536

/* The table: the library's, whose entry i is (167 * i + 13) % 256, unless word 3 of an image of edition 2 is 1. Then it is the
 * image's own, as reelbook_format was given it: 256 bytes, each value once, in words 8 to 39, eight entries to a word, lowest
 * byte first. Without one a format makes these words 0. Where word 3 is above 1 in edition 2, or the own table lacks some byte,
 * the image is not sound: reelbook_recover answers 4, and so does, just after 3, every other function but reelbook_format,
 * reelbook_apply and reelbook_translate. Words 8 to 39 are not read unless word 3 is 1, in edition 1 word 3 neither, and words 4
 * to 7 and 40 to 63 never. Libraries before 4.0 read none of them: do not lend these an image with its own table. */
#define REELBOOK_OWN_AT 3
#define REELBOOK_TABLE_AT 8
#define REELBOOK_TABLE_WORDS 32
#define REELBOOK_TABLE_BYTES 256

/* Slots and nodes, for tools that only read. A root or next word has a node's number plus 1, or 0 for none. */
#define REELBOOK_SLOT_WORDS 2
#define REELBOOK_SLOT_REEL 0
#define REELBOOK_SLOT_ROOT 1
#define REELBOOK_NODE_WORDS 80
#define REELBOOK_NODE_NEXT 0
#define REELBOOK_NODE_LOCATE 1
#define REELBOOK_NODE_SET 2
#define REELBOOK_NODE_LEVEL 3
#define REELBOOK_NODE_SIZE 4
#define REELBOOK_NODE_FINGERPRINTS 8
#define REELBOOK_NODE_FRAMES 16

/* Head records: five words for each head, numbered from 0. Any other state is read as idle; a record written idle is all 0. */
#define REELBOOK_HEADS 4
#define REELBOOK_HEAD_WORDS 5
#define REELBOOK_HEAD_STATE_AT 0
#define REELBOOK_HEAD_SLOT_AT 1
#define REELBOOK_HEAD_NODE_AT 2
#define REELBOOK_HEAD_PLACE_AT 3
#define REELBOOK_HEAD_FRAME_AT 4
enum { REELBOOK_IDLE = 0, REELBOOK_CLAIMED = 1, REELBOOK_FILLED = 2 };
#define REELBOOK_HEADS_WORDS (REELBOOK_HEADS * REELBOOK_HEAD_WORDS)

/* An answer in words. */
static inline const char *reelbook_answer_text(uint64_t answer) {
    switch (answer) {
    case REELBOOK_DONE: return "done";
    case REELBOOK_BAD_IMAGE: return "the image's length or numbers are wrong";
    case REELBOOK_BAD_EDITION: return "the image's edition is neither 1 nor 2";
    case REELBOOK_BAD_BUFFER: return "a buffer's length is wrong, or a script is none";
    case REELBOOK_MALFORMED: return "the tree or the image's own table is malformed";
    case REELBOOK_NO_REEL: return "no such reel";
    case REELBOOK_ALREADY_OPEN: return "the reel is open already";
    case REELBOOK_NO_SLOT: return "no empty reel slot";
    case REELBOOK_NO_RUN: return "not enough adjacent free nodes";
    case REELBOOK_FRAME_HELD: return "held already";
    case REELBOOK_NOT_HELD: return "not held";
    case REELBOOK_BAD_HEAD: return "no such head";
    case REELBOOK_WRONG_STATE: return "the head is in another state";
    case REELBOOK_BUSY: return "an open claim is in the way";
    case REELBOOK_LIST_SHORT: return "the list has too little room";
    case REELBOOK_BAD_TABLE: return "the given table is not 256 bytes with each byte once";
    case REELBOOK_HAS_OWN_TABLE: return "an own table can't go to edition 1";
    case REELBOOK_NO_EMPTY_GROUP: return "no empty group of nodes";
    default: return "unknown answer";
    }
}

/* The words of an image, for numbers within the maxima. */
static inline size_t reelbook_image_words(uint64_t slots, uint64_t nodes) {
    /* SIZE_MAX instead of a cast, which C and C++ write differently. */
    return (REELBOOK_HEADER_WORDS + REELBOOK_SLOT_WORDS * slots + REELBOOK_NODE_WORDS * nodes) & SIZE_MAX;
}

/* The words of its pool map, and of a scratch map: bit n % 64 of word n / 64 is 1 if node n is used. */
static inline size_t reelbook_map_words(uint64_t nodes) {
    return ((nodes + 63) / 64) & SIZE_MAX;
}

/* Makes the image anew, of edition 2, whatever it was. Refusals 1, 3, 16. Writes the image's header and roots itself, clears the
 * map, makes the heads idle; lasting when the caller has passed a barrier. Not safe against a power failure before that: then
 * format again. The table, of REELBOOK_TABLE_BYTES bytes, each value once, becomes the image's own, by which its fingerprints go
 * until it is formatted again; one of length 0 is none, and the library's applies. One that equals the library's is an own one
 * all the same. It is only read, and not needed any more when the function returns. */
uint64_t reelbook_format(uint64_t *image, size_t image_words, uint64_t *map, size_t map_words,
                         uint64_t heads[REELBOOK_HEADS_WORDS], const uint8_t *table, size_t table_bytes, uint64_t slots,
                         uint64_t nodes);

/* After power-up, before anything else, and again until it answers 0. Refusals 1, 2, 3, 4; after 4 the image is as it was and the
 * map all 0. Stores to the image itself, each word whole; builds the map, makes the heads idle; open claims are lost. It has
 * ended when the caller has passed a barrier; a power failure before that does no harm. The image is judged by its edition's
 * rule and its own table, and keeps both; an own table that is malformed is a 4 like any other. On an image of edition 1 that an
 * earlier library left, this is the start too: its frames stay. */
uint64_t reelbook_recover(uint64_t *image, size_t image_words, uint64_t *map, size_t map_words,
                          uint64_t heads[REELBOOK_HEADS_WORDS]);

/* Opens a reel. Refusals 1, 2, 3, 4 for the table, 6, 7, 8. Marks a node in the map. */
uint64_t reelbook_open(const uint64_t *image, size_t image_words, uint64_t *map, size_t map_words, uint64_t *script,
                       size_t script_words, uint64_t reel, uint64_t *used);

/* Takes a place for a frame. Refusals 1, 2, 3, 4 for the table, 11, 12 unless the head is idle, 5, 4, 9, 13, 8. 13 is for another
 * head that has a claim open in this reel, with the same frame, or at the very node in which this claim would take its place: not
 * at a full node that would get children, and at none if there are no free nodes for these. Other heads may be at work in the
 * reel. The head is claimed; new nodes are marked in the map. The frame is not held before its commit, and a claim that a power
 * failure cuts short leaves no frame. *left is how many clear places the node of this place has left: its size, after any
 * scale-up, minus the ones of its locate word with this place taken. At 0 the node is full, and the next frame there takes a
 * larger node or one below. */
uint64_t reelbook_claim(const uint64_t *image, size_t image_words, uint64_t *map, size_t map_words,
                        uint64_t heads[REELBOOK_HEADS_WORDS], uint64_t *script, size_t script_words, uint64_t head, uint64_t reel,
                        uint64_t frame, uint64_t *used, uint64_t *left);

/* Writes the frame to the claimed place. Refusals 1, 2, 3, 4 for the table, 11, 12 unless the head is claimed, 4. The head is
 * filled. */
uint64_t reelbook_fill(const uint64_t *image, size_t image_words, uint64_t heads[REELBOOK_HEADS_WORDS], uint64_t *script,
                       size_t script_words, uint64_t head, uint64_t *used);

/* Makes the frame a member of its reel: it is held from this script's barrier on. Refusals 1, 2, 3, 4 for the table, 11, 12
 * unless the head is filled, 4. The head is idle. */
uint64_t reelbook_commit(const uint64_t *image, size_t image_words, uint64_t heads[REELBOOK_HEADS_WORDS], uint64_t *script,
                         size_t script_words, uint64_t head, uint64_t *used);

/* Gives the claimed place back. Refusals 1, 2, 3, 4 for the table, 11, 12 if the head is idle, 4. The head is idle. */
uint64_t reelbook_abandon(const uint64_t *image, size_t image_words, uint64_t heads[REELBOOK_HEADS_WORDS], uint64_t *script,
                          size_t script_words, uint64_t head, uint64_t *used);

/* Takes a frame out of its reel. Refusals 1, 2, 3, 4 for the table, 5, 13 while a claim is open in the reel, 4, 10. */
uint64_t reelbook_remove(const uint64_t *image, size_t image_words, const uint64_t heads[REELBOOK_HEADS_WORDS], uint64_t *script,
                         size_t script_words, uint64_t reel, uint64_t frame, uint64_t *used);

/* Does a reel hold a frame? 1 or 0 in *yes. Refusals 1, 2, 4 for the table, 5, 4; both numbers are then 0. *nodes is how many
 * nodes are on the frame's path, from 1 to 32, and so how many the lookup reads: the whole path, also where the frame is found
 * above its end, and whatever *yes says. It is 1 for a reel opened in this run that since then never had more than 64 frames
 * held, claimed and filled taken together, a claim that a power failure cut short counted in. A run is the work on an image from
 * reelbook_format on, or from the first reelbook_recover of one that was found; power failures do not end it. */
uint64_t reelbook_has(const uint64_t *image, size_t image_words, uint64_t reel, uint64_t frame, uint64_t *yes, uint64_t *nodes);

/* Writes a reel's frames to the list's start, each once, and their number to *count. Refusals 1, 2, 3, 4 for the table, 5, 4,
 * 14; nothing is written to the list then. The scratch map is all 0 after any end but 1, 2 or 3. */
uint64_t reelbook_list(const uint64_t *image, size_t image_words, uint64_t *scratch, size_t scratch_words, uint64_t *list,
                       size_t list_words, uint64_t reel, uint64_t *count);

/* Takes a reel out with all its frames; its nodes become free in the map. Refusals 1, 2, 3, 4 for the table, 5, 13 while a
 * claim is open in the reel, 4. The scratch map is all 0 after any end but 1, 2 or 3. */
uint64_t reelbook_retire(const uint64_t *image, size_t image_words, uint64_t *map, size_t map_words,
                         const uint64_t heads[REELBOOK_HEADS_WORDS], uint64_t *scratch, size_t scratch_words, uint64_t *script,
                         size_t script_words, uint64_t reel, uint64_t *used);

/* Gives back a group of empty nodes, as removals leave them: finds the first node with children, in the sequence of
 * reelbook_list, all of whose children have both bitmaps 0 and no children. Its next word becomes 0, and these children, two or
 * four adjacent nodes, become free in the map. Refusals 1, 2, 3, 4 for the table, 5, 13 while a claim is open in the reel, 4, 18
 * if there is no such node. One group with each call: call again until 18. The reel's frames are the same before, after and at a
 * power failure in it; paths may become shorter. A claim that got 8 just before, made again just after, is answered if there is
 * now a run of adjacent free nodes as long as it needs. The scratch map is all 0 after any end but 1, 2 or 3. Libraries before
 * 5.1 do not have this function. */
uint64_t reelbook_tidy(const uint64_t *image, size_t image_words, uint64_t *map, size_t map_words,
                       const uint64_t heads[REELBOOK_HEADS_WORDS], uint64_t *scratch, size_t scratch_words, uint64_t *script,
                       size_t script_words, uint64_t reel, uint64_t *used);

/* Makes the book in the other edition, 2 of 1 or 1 of 2, in a second image: the copy. Slots, nodes and places stay where they
 * are, and every reel has the same list. Refusals 1, for the copy too unless it is as long as the image, 2, 3, 4 if the image is
 * not sound, as reelbook_recover, 17 if it is of edition 2 and has its own table. The image is only read, and goes on as it is.
 * After a refusal the copy is as it was; else each of its words is written, whatever it held: locate words are the set words, so
 * that no claim is open in it, and empty slots, nodes that no reel reaches, frames and fingerprints of places not held, and words
 * that are not read are 0. The copy is used only once the caller has passed a barrier over all of it, and work on it starts with
 * reelbook_recover. A power failure before that costs the copy, and open claims as always: convert again. The scratch map is all
 * 0 after any end but 1, 2 or 3. Libraries before 4.1 do not have this function. */
uint64_t reelbook_convert(const uint64_t *image, size_t image_words, uint64_t *copy, size_t copy_words, uint64_t *scratch,
                          size_t scratch_words);

/* Makes a script's stores on an image, barriers and flushes skipped, whatever line they name: not for an image that must outlast
 * a power failure meanwhile. Refusals 1; 3 if the script is odd in length or an entry is neither a barrier nor a flush nor a
 * store inside the image, with nothing written. Reads neither edition nor table. */
uint64_t reelbook_apply(uint64_t *image, size_t image_words, const uint64_t *script, size_t script_words);

/* Turns a script for an image of so many words into that of a module on which a store is lasting once its line was flushed after
 * it and a barrier has followed: before each barrier comes one flush for each line stored to since the barrier before, in the
 * sequence of the first stores. The caller carries out the module's script instead of the other. Whatever a power failure leaves,
 * however far it got, the script itself, cut at the same store or barrier, could have left where a barrier alone makes stores
 * lasting. Refusal 3: module_words is below REELBOOK_MODULE_WORDS, which suffices for every script; or the script is odd in
 * length, longer than REELBOOK_SCRIPT_WORDS, not empty and without a barrier at its end, or has an entry that is neither a
 * barrier nor a store inside the image, so that none with a store is translated twice. An empty script becomes an empty one. Words of module
 * behind *used, and all of them after a refusal, stay. What reelbook_format, reelbook_recover and reelbook_convert write needs
 * the caller's own flushes, of each line of that image, before the barrier. The image starts on a 64-byte boundary. Libraries
 * before 5.2 do not have this function. */
uint64_t reelbook_translate(const uint64_t *script, size_t script_words, uint64_t *module, size_t module_words,
                            uint64_t image_words, uint64_t *used);

#ifdef __cplusplus
}
#endif

#endif
