#include "tidy_call.h"

#include <string.h>

struct lengths right_lengths(const struct book *b) {
    struct lengths l;
    l.image = b->image_words;
    l.map = l.scratch = b->map_words;
    l.script = REELBOOK_SCRIPT_WORDS;
    return l;
}

static void lend_copy(struct lent *l, const uint64_t *words, size_t has, size_t count) {
    lend(l, count);
    memcpy(l->pages + l->bytes - count * sizeof *words, words, (count < has ? count : has) * sizeof *words);
}

void lend_call(struct call *c, const struct book *b, struct lengths l, uint64_t reel) {
    lend_copy(&c->image, b->image, b->image_words, l.image);
    lend_copy(&c->map, b->map, b->map_words, l.map);
    lend_copy(&c->heads, b->heads, REELBOOK_HEADS_WORDS, REELBOOK_HEADS_WORDS);
    lend(&c->scratch, l.scratch);
    lend(&c->script, l.script);
    lend(&c->used, 1);
    c->reel = reel;
}

void call_back(struct call *c) {
    lent_back(&c->image);
    lent_back(&c->map);
    lent_back(&c->heads);
    lent_back(&c->scratch);
    lent_back(&c->script);
    lent_back(&c->used);
}

static uint64_t words_other_than(const struct lent *l, size_t from, uint64_t value) {
    uint64_t count = 0;
    for (; from < l->count; from++) {
        count += l->words[from] != value;
    }
    return count;
}

/* A refusal may store to the scratch map alone, and 1, 2 and 3 not even there. */
void check_call(struct call *c, uint64_t due, const char *what) {
    int unread = due == REELBOOK_BAD_IMAGE || due == REELBOOK_BAD_EDITION || due == REELBOOK_BAD_BUFFER;
    lent_for(what);
    lent_read_only(&c->image);
    lent_read_only(&c->heads);
    if (due != REELBOOK_DONE) {
        lent_read_only(&c->map);
        lent_read_only(&c->script);
    }
    if (unread) {
        lent_read_only(&c->scratch);
    }
    equal(reelbook_tidy(c->image.words, c->image.count, c->map.words, c->map.count, c->heads.words, c->scratch.words,
                        c->scratch.count, c->script.words, c->script.count, c->reel, c->used.words),
          due, what);
    equal(*c->used.words, due == REELBOOK_DONE ? 4 : 0, "words of script that Tidy tells");
    equal(unread ? 0 : words_other_than(&c->scratch, 0, 0), 0, "words of the scratch map that are not 0 after Tidy");
}

void check_given_back(struct call *c, struct book *b, const struct group *g) {
    uint64_t junk_word, node;
    memset(&junk_word, JUNK, sizeof junk_word);
    equal(c->script.words[0], node_index(b, g->parent, REELBOOK_NODE_NEXT), "the word that Tidy stores to");
    equal(c->script.words[1], 0, "the value that Tidy stores");
    equal(c->script.words[2], REELBOOK_BARRIER, "Tidy's barrier");
    equal(c->script.words[3], 0, "the barrier's value");
    equal(words_other_than(&c->script, 4, junk_word), 0, "words of script that Tidy does not use");
    for (node = g->first; node < g->first + g->count; node++) {
        b->map[node / 64] &= ~(UINT64_C(1) << node % 64);
    }
    equal((uint64_t)memcmp(c->map.words, b->map, b->map_words * sizeof *b->map), 0, "the map after Tidy");
    b->image[node_index(b, g->parent, REELBOOK_NODE_NEXT)] = 0;
}

uint64_t tidy_once(struct book *b, uint64_t reel, uint64_t slot, const char *what) {
    struct call c;
    struct group g;
    uint64_t due = first_group(b, slot, &g) ? REELBOOK_DONE : REELBOOK_NO_EMPTY_GROUP;
    lend_call(&c, b, right_lengths(b), reel);
    check_call(&c, due, what);
    if (due == REELBOOK_DONE) {
        check_given_back(&c, b, &g);
    }
    call_back(&c);
    return due;
}
