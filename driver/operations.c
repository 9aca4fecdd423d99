#include <stdlib.h>
#include <string.h>

#include "book.h"
#include "own_table.h"

enum { HEAD = 0 };

/* Buffers as the library takes them: where, and how many words. */
#define IMAGE b->image, b->file.image_words
#define MAP b->map, b->file.map_words
#define SCRATCH b->scratch, b->file.map_words
#define SCRIPT b->script, REELBOOK_SCRIPT_WORDS

static uint64_t carry_out_script(struct book *b, const uint64_t *script, size_t words) {
    size_t at = b->file.image_at;
    int failed = b->crash ? crash_carry_out(b->crash, &b->medium, at, script, words) : carry_out(&b->medium, at, script, words);
    count_entries(&b->entries, script, words);
    return failed ? BOOK_SYSTEM : REELBOOK_DONE;
}

/* Map and heads are ahead of the image where a script is not carried out. */
static uint64_t carry(struct book *b, uint64_t answer) {
    const uint64_t *script = b->medium.module ? b->module_script : b->script;
    if (answer != REELBOOK_DONE)
        return own_table_answer(b->image, answer);
    if (b->medium.module)
        answer = reelbook_translate(b->script, (size_t)b->used, b->module_script, REELBOOK_MODULE_WORDS, b->file.image_words,
                                    &b->used);
    if (answer == REELBOOK_DONE)
        answer = carry_out_script(b, script, (size_t)b->used);
    if (answer != REELBOOK_DONE)
        b->failed = 1;
    return answer;
}

uint64_t book_open_reel(struct book *b, uint64_t reel) {
    return carry(b, reelbook_open(IMAGE, MAP, SCRIPT, reel, &b->used));
}

uint64_t book_add(struct book *b, uint64_t reel, uint64_t frame) {
    uint64_t answer = carry(b, reelbook_claim(IMAGE, MAP, b->heads, SCRIPT, HEAD, reel, frame, &b->used, &b->left));
    if (answer == REELBOOK_DONE)
        answer = carry(b, reelbook_fill(IMAGE, b->heads, SCRIPT, HEAD, &b->used));
    if (answer == REELBOOK_DONE)
        answer = carry(b, reelbook_commit(IMAGE, b->heads, SCRIPT, HEAD, &b->used));
    return answer;
}

uint64_t book_remove(struct book *b, uint64_t reel, uint64_t frame) {
    return carry(b, reelbook_remove(IMAGE, b->heads, SCRIPT, reel, frame, &b->used));
}

uint64_t book_retire(struct book *b, uint64_t reel) {
    return carry(b, reelbook_retire(IMAGE, MAP, b->heads, SCRATCH, SCRIPT, reel, &b->used));
}

static uint64_t used_nodes(const struct book *b) {
    uint64_t count = 0;
    for (size_t at = 0; at < b->file.map_words; at++)
        count += (uint64_t)__builtin_popcountll(b->map[at]);
    return count;
}

uint64_t book_tidy(struct book *b, uint64_t reel, uint64_t *freed) {
    uint64_t before = used_nodes(b);
    uint64_t answer = carry(b, reelbook_tidy(IMAGE, MAP, b->heads, SCRATCH, SCRIPT, reel, &b->used));
    *freed += before - used_nodes(b);
    return answer;
}

uint64_t book_has(const struct book *b, uint64_t reel, uint64_t frame, uint64_t *yes, uint64_t *nodes) {
    return own_table_answer(b->image, reelbook_has(IMAGE, reel, frame, yes, nodes));
}

uint64_t book_list(struct book *b, uint64_t reel, uint64_t **frames, uint64_t *count) {
    size_t room = (size_t)(NODE_PLACES * b->file.nodes);
    *frames = malloc(room * sizeof **frames);
    if (!*frames)
        return BOOK_SYSTEM;
    uint64_t answer = reelbook_list(IMAGE, SCRATCH, *frames, room, reel, count);
    if (answer != REELBOOK_DONE)
        free(*frames);
    return own_table_answer(b->image, answer);
}

static size_t locate_at(const struct book *b, uint64_t node) {
    return (size_t)(book_node(b, node) + REELBOOK_NODE_LOCATE - b->image);
}

static uint64_t *copy_locate_words(const struct book *b) {
    uint64_t *copy = malloc((size_t)b->file.nodes * sizeof *copy);
    for (uint64_t node = 0; copy && node < b->file.nodes; node++)
        copy[node] = book_node(b, node)[REELBOOK_NODE_LOCATE];
    return copy;
}

static size_t count_mended(const struct book *b, const uint64_t *before) {
    size_t count = 0;
    for (uint64_t node = 0; node < b->file.nodes; node++)
        count += book_node(b, node)[REELBOOK_NODE_LOCATE] != before[node];
    return count;
}

/* The barrier over the whole image ends the recovery. On a private copy it is none. */
static int end_recovery(struct book *b, const uint64_t *before) {
    const struct recovered r = {b->file.image_at, b->file.image_words, locate_at(b, 0), b->file.nodes, before};
    b->mended = count_mended(b, before);
    b->recovered = 1;
    if (b->crash && crash_recovery(b->crash, &b->medium, &r) != 0)
        return -1;
    return medium_barrier_over(&b->medium, b->file.image_at, b->file.image_words);
}

uint64_t book_recover(struct book *b) {
    uint64_t *before = copy_locate_words(b);
    if (!before)
        return BOOK_SYSTEM;
    uint64_t answer = reelbook_recover(IMAGE, MAP, b->heads);
    if (answer == REELBOOK_DONE && end_recovery(b, before) != 0)
        answer = BOOK_SYSTEM;
    free(before);
    return own_table_answer(b->image, answer);
}

/* What is converted is lasting before recovery starts on it. */
uint64_t book_convert(const struct book *old, struct book *b) {
    uint64_t answer = reelbook_convert(old->image, old->file.image_words, IMAGE, SCRATCH);
    if (answer != REELBOOK_DONE)
        return own_table_answer(old->image, answer);
    b->failed = medium_barrier_over(&b->medium, b->file.image_at, b->file.image_words) != 0;
    return b->failed ? BOOK_SYSTEM : book_recover(b);
}

/* Only where they differ: every other page of the private copy stays the file's. */
static void put_back(const struct book *b, const uint64_t *before) {
    for (uint64_t node = 0; node < b->file.nodes; node++)
        if (b->image[locate_at(b, node)] != before[node])
            b->image[locate_at(b, node)] = before[node];
}

/* The saved map counts only if the book was closed cleanly: then the next opening trusts it. */
static int saved_map_wrong(const struct book *b) {
    return b->file.clean && memcmp(b->map, b->medium.words + b->file.map_at, b->file.map_words * sizeof *b->map) != 0;
}

uint64_t book_check(struct book *b) {
    uint64_t *before = copy_locate_words(b);
    if (!before)
        return BOOK_SYSTEM;
    uint64_t answer = reelbook_recover(IMAGE, MAP, b->heads);
    if (answer == REELBOOK_DONE) {
        b->mended = count_mended(b, before);
        put_back(b, before);
        answer = saved_map_wrong(b) ? BOOK_WRONG_MAP : REELBOOK_DONE;
    }
    free(before);
    return own_table_answer(b->image, answer);
}
