#include <inttypes.h>
#include <stdio.h>
#include <stdlib.h>

#include <reelbook.h>

enum { FEW = 2 }; /* places left in a node: the time to warn */

struct book {
    uint64_t *image, *map;
    size_t image_words, map_words;
    uint64_t heads[REELBOOK_HEADS_WORDS], script[REELBOOK_SCRIPT_WORDS], used;
};

/* One aligned store of 8 bytes. */
static void store(uint64_t *word, uint64_t value) {
    *(volatile uint64_t *)word = value;
}

/* Returns when every store before it is lasting. Persistent memory: flush the touched lines, fence. A mapped file: msync. */
static void barrier(void) {
}

/* Every operation with a script ends here. */
static uint64_t carry_out(struct book *b, uint64_t answer) {
    for (uint64_t at = 0; answer == REELBOOK_DONE && at < b->used; at += 2)
        if (b->script[at] == REELBOOK_BARRIER)
            barrier();
        else
            store(&b->image[b->script[at]], b->script[at + 1]);
    return answer;
}

static uint64_t open_reel(struct book *b, uint64_t reel) {
    return carry_out(b, reelbook_open(b->image, b->image_words, b->map, b->map_words, b->script, REELBOOK_SCRIPT_WORDS, reel,
                                      &b->used));
}

/* The frame is held when this answers 0. Between the three calls other heads may be at work, in this reel too. Warns before the
 * frame's node is full: each time that a frame brings it to so few places left. */
static uint64_t add(struct book *b, uint64_t reel, uint64_t frame) {
    uint64_t left, answer = carry_out(b, reelbook_claim(b->image, b->image_words, b->map, b->map_words, b->heads, b->script,
                                                        REELBOOK_SCRIPT_WORDS, 0, reel, frame, &b->used, &left));
    if (answer == REELBOOK_DONE)
        answer = carry_out(b, reelbook_fill(b->image, b->image_words, b->heads, b->script, REELBOOK_SCRIPT_WORDS, 0, &b->used));
    if (answer == REELBOOK_DONE)
        answer = carry_out(b, reelbook_commit(b->image, b->image_words, b->heads, b->script, REELBOOK_SCRIPT_WORDS, 0, &b->used));
    if (answer == REELBOOK_DONE && left == FEW)
        printf("frame %" PRIu64 ": %d places left in its node\n", frame, FEW);
    return answer;
}

/* After power-up, before anything else. */
static uint64_t recover(struct book *b) {
    uint64_t answer = reelbook_recover(b->image, b->image_words, b->map, b->map_words, b->heads);
    barrier(); /* over the whole image: only now recovery has ended */
    return answer;
}

int main(void) {
    struct book b = {.image_words = reelbook_image_words(4, 16), .map_words = reelbook_map_words(16)};
    b.image = calloc(b.image_words, sizeof *b.image); /* lasting memory */
    b.map = calloc(b.map_words, sizeof *b.map);
    if (!b.image || !b.map)
        return 1;
    uint64_t yes = 0, nodes = 0, answer = reelbook_format(b.image, b.image_words, b.map, b.map_words, b.heads, NULL, 0, 4, 16);
    barrier(); /* over the whole image; if power fails before it, format again */
    if (answer == REELBOOK_DONE)
        answer = open_reel(&b, 7);
    for (uint64_t frame = 1; answer == REELBOOK_DONE && frame <= 16; frame++)
        answer = add(&b, 7, frame);
    if (answer == REELBOOK_DONE)
        answer = recover(&b);
    if (answer == REELBOOK_DONE)
        answer = reelbook_has(b.image, b.image_words, 7, 12, &yes, &nodes);
    printf("answer %d, %s; nodes on its path: %d\n", (int)answer, yes ? "held" : "not held", (int)nodes);
    return 0;
}
