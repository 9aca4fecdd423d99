/* From edition 2 to edition 1 and back: a book for a scanner whose software knows edition 1 alone. */
#include <inttypes.h>
#include <stdio.h>

#include <reelbook.h>

enum {
    REELS = 4,
    NODES = 16,
    IMAGE_WORDS = REELBOOK_HEADER_WORDS + REELBOOK_SLOT_WORDS * REELS + REELBOOK_NODE_WORDS * NODES,
    MAP_WORDS = (NODES + 63) / 64
};

struct book {
    uint64_t image[IMAGE_WORDS], map[MAP_WORDS], heads[REELBOOK_HEADS_WORDS];
};
static struct book new_book, old_book, back;
static uint64_t scratch[MAP_WORDS], list[64 * NODES], script[REELBOOK_SCRIPT_WORDS], used, left;

/* Returns when every word of the image is lasting. Here they are in ordinary memory. */
static void barrier_over(const uint64_t *image) {
    (void)image;
}

/* What `from` has is only read. `to` is a book of the other edition when this has answered 0. */
static uint64_t convert(const struct book *from, struct book *to) {
    uint64_t answer = reelbook_convert(from->image, IMAGE_WORDS, to->image, IMAGE_WORDS, scratch, MAP_WORDS);
    if (answer != REELBOOK_DONE)
        return answer;       /* nothing was written to `to` */
    barrier_over(to->image); /* if power fails before it has passed, convert again */
    answer = reelbook_recover(to->image, IMAGE_WORDS, to->map, MAP_WORDS, to->heads);
    barrier_over(to->image);
    return answer;
}

/* docs/DRIVER.md has what a driver does instead of reelbook_apply. */
static uint64_t carry_out(struct book *b, uint64_t answer) {
    return answer == REELBOOK_DONE ? reelbook_apply(b->image, IMAGE_WORDS, script, used) : answer;
}

static uint64_t add(struct book *b, uint64_t reel, uint64_t frame) {
    uint64_t answer = carry_out(b, reelbook_claim(b->image, IMAGE_WORDS, b->map, MAP_WORDS, b->heads, script,
                                                  REELBOOK_SCRIPT_WORDS, 0, reel, frame, &used, &left));
    if (answer == REELBOOK_DONE)
        answer = carry_out(b, reelbook_fill(b->image, IMAGE_WORDS, b->heads, script, REELBOOK_SCRIPT_WORDS, 0, &used));
    if (answer == REELBOOK_DONE)
        answer = carry_out(b, reelbook_commit(b->image, IMAGE_WORDS, b->heads, script, REELBOOK_SCRIPT_WORDS, 0, &used));
    return answer;
}

static void print(const struct book *b, uint64_t reel) {
    uint64_t count = 0;
    reelbook_list(b->image, IMAGE_WORDS, scratch, MAP_WORDS, list, 64 * NODES, reel, &count);
    printf("edition %" PRIu64 ", reel %" PRIu64 ":", b->image[REELBOOK_EDITION_AT], reel);
    for (uint64_t i = 0; i < count; i++)
        printf(" %" PRIu64, list[i]);
    putchar('\n');
}

int main(void) {
    static const uint64_t frames[] = {12, 5, UINT64_C(4294967301)};
    uint8_t table[REELBOOK_TABLE_BYTES];
    struct book *b = &new_book;
    reelbook_format(b->image, IMAGE_WORDS, b->map, MAP_WORDS, b->heads, NULL, 0, REELS, NODES);
    carry_out(b, reelbook_open(b->image, IMAGE_WORDS, b->map, MAP_WORDS, script, REELBOOK_SCRIPT_WORDS, 7, &used));
    for (int i = 0; i < 3; i++)
        add(b, 7, frames[i]);
    print(b, 7);
    if (convert(&new_book, &old_book) == REELBOOK_DONE)
        print(&old_book, 7);
    if (add(&old_book, 7, 900) == REELBOOK_DONE && convert(&old_book, &back) == REELBOOK_DONE)
        print(&back, 7);
    for (unsigned i = 0; i < REELBOOK_TABLE_BYTES; i++)
        table[i] = (uint8_t)(REELBOOK_TABLE_BYTES - 1 - i);
    reelbook_format(b->image, IMAGE_WORDS, b->map, MAP_WORDS, b->heads, table, sizeof table, REELS, NODES);
    uint64_t answer = convert(&new_book, &old_book);
    printf("with a table of its own: %s (%" PRIu64 ")\n", reelbook_answer_text(answer), answer);
    return 0;
}
