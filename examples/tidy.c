/* A pool that is used up, and a reel whose last frame went again: the nodes that it leaves empty are given back when another reel
 * needs them. */
#include <inttypes.h>
#include <stdio.h>

#include <reelbook.h>

enum {
    FIRST_REEL = 7,
    REELS = 2,
    NODES = 4,
    IMAGE_WORDS = REELBOOK_HEADER_WORDS + REELBOOK_SLOT_WORDS * REELS + REELBOOK_NODE_WORDS * NODES,
    MAP_WORDS = (NODES + 63) / 64
};
static uint64_t image[IMAGE_WORDS], map[MAP_WORDS], scratch[MAP_WORDS], heads[REELBOOK_HEADS_WORDS];
static uint64_t script[REELBOOK_SCRIPT_WORDS], used;

/* In ordinary memory, without barriers. docs/DRIVER.md has what a driver does. */
static uint64_t carry_out(uint64_t answer) {
    return answer == REELBOOK_DONE ? reelbook_apply(image, IMAGE_WORDS, script, used) : answer;
}

static uint64_t claim(uint64_t reel, uint64_t frame) {
    uint64_t left;
    return carry_out(reelbook_claim(image, IMAGE_WORDS, map, MAP_WORDS, heads, script, REELBOOK_SCRIPT_WORDS, 0, reel, frame,
                                    &used, &left));
}

/* One group of empty nodes. */
static uint64_t tidy(uint64_t reel) {
    return carry_out(reelbook_tidy(image, IMAGE_WORDS, map, MAP_WORDS, heads, scratch, MAP_WORDS, script, REELBOOK_SCRIPT_WORDS,
                                   reel, &used));
}

/* A claim that finds no nodes is made again after each group that some reel gives back, as long as one does. */
static uint64_t claim_or_tidy(uint64_t reel, uint64_t frame) {
    uint64_t answer = claim(reel, frame);
    for (uint64_t other = FIRST_REEL; answer == REELBOOK_NO_RUN && other < FIRST_REEL + REELS;)
        if (tidy(other) == REELBOOK_DONE)
            answer = claim(reel, frame);
        else
            other++; /* 18: it has no more; 13: a head has a claim open in it */
    return answer;
}

static uint64_t add(uint64_t reel, uint64_t frame) {
    uint64_t answer = claim_or_tidy(reel, frame);
    if (answer == REELBOOK_DONE)
        answer = carry_out(reelbook_fill(image, IMAGE_WORDS, heads, script, REELBOOK_SCRIPT_WORDS, 0, &used));
    if (answer == REELBOOK_DONE)
        answer = carry_out(reelbook_commit(image, IMAGE_WORDS, heads, script, REELBOOK_SCRIPT_WORDS, 0, &used));
    return answer;
}

/* A reel with frames from 0 on. */
static uint64_t open_reel(uint64_t reel, uint64_t frames) {
    uint64_t answer = carry_out(reelbook_open(image, IMAGE_WORDS, map, MAP_WORDS, script, REELBOOK_SCRIPT_WORDS, reel, &used));
    for (uint64_t frame = 0; answer == REELBOOK_DONE && frame < frames; frame++)
        answer = add(reel, frame);
    return answer;
}

static void say(const char *what, uint64_t answer) {
    printf("%s: %s (%" PRIu64 ")\n", what, reelbook_answer_text(answer), answer);
}

int main(void) {
    uint64_t answer = reelbook_format(image, IMAGE_WORDS, map, MAP_WORDS, heads, NULL, 0, REELS, NODES);
    if (answer == REELBOOK_DONE)
        answer = open_reel(FIRST_REEL, 65); /* a root and two below it */
    if (answer == REELBOOK_DONE)
        answer = open_reel(FIRST_REEL + 1, 64);
    say("two reels, four nodes", answer);
    say("frame 64 of reel 8", add(8, 64));
    answer = reelbook_remove(image, IMAGE_WORDS, heads, script, REELBOOK_SCRIPT_WORDS, 7, 64, &used);
    say("frame 64 of reel 7 goes", carry_out(answer));
    say("frame 64 of reel 8", add(8, 64));
    say("reel 7", tidy(7));
    return 0;
}
