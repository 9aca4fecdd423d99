/* Two heads on one reel. Each has its claim open while the other works, unless both want the same frame or the same node. */
#include <inttypes.h>
#include <stdio.h>

#include <reelbook.h>

enum {
    REELS = 4,
    NODES = 16,
    IMAGE_WORDS = REELBOOK_HEADER_WORDS + REELBOOK_SLOT_WORDS * REELS + REELBOOK_NODE_WORDS * NODES,
    MAP_WORDS = (NODES + 63) / 64
};
static uint64_t image[IMAGE_WORDS], map[MAP_WORDS], heads[REELBOOK_HEADS_WORDS], script[REELBOOK_SCRIPT_WORDS], used;
static unsigned waits, filled; /* how often head 1 had to wait; how often a claim left its node full */

/* In ordinary memory, without barriers. docs/DRIVER.md has what a driver does. */
static uint64_t carry_out(uint64_t answer) {
    return answer == REELBOOK_DONE ? reelbook_apply(image, IMAGE_WORDS, script, used) : answer;
}

static uint64_t claim(uint64_t head, uint64_t reel, uint64_t frame) {
    uint64_t left, answer = reelbook_claim(image, IMAGE_WORDS, map, MAP_WORDS, heads, script, REELBOOK_SCRIPT_WORDS, head, reel,
                                           frame, &used, &left);
    filled += answer == REELBOOK_DONE && left == 0;
    return carry_out(answer);
}

static uint64_t finish(uint64_t head) {
    uint64_t answer = carry_out(reelbook_fill(image, IMAGE_WORDS, heads, script, REELBOOK_SCRIPT_WORDS, head, &used));
    if (answer == REELBOOK_DONE)
        answer = carry_out(reelbook_commit(image, IMAGE_WORDS, heads, script, REELBOOK_SCRIPT_WORDS, head, &used));
    return answer;
}

/* A frame of each head, for one reel. Head 1 claims while head 0 has its claim open, or else once that is committed. */
static uint64_t add_both(uint64_t reel, uint64_t first, uint64_t second) {
    uint64_t answer = claim(0, reel, first);
    if (answer != REELBOOK_DONE)
        return answer;
    uint64_t other = claim(1, reel, second);
    answer = finish(0);
    if (answer == REELBOOK_DONE && other == REELBOOK_BUSY) {
        waits++;
        other = claim(1, reel, second);
    }
    if (other == REELBOOK_DONE)
        other = finish(1);
    return answer == REELBOOK_DONE ? other : answer;
}

int main(void) {
    uint64_t frame = 0, answer = reelbook_format(image, IMAGE_WORDS, map, MAP_WORDS, heads, NULL, 0, REELS, NODES);
    if (answer == REELBOOK_DONE)
        answer = carry_out(reelbook_open(image, IMAGE_WORDS, map, MAP_WORDS, script, REELBOOK_SCRIPT_WORDS, 7, &used));
    for (; answer == REELBOOK_DONE && frame < 200; frame += 2)
        answer = add_both(7, frame, frame + 1);
    printf("%" PRIu64 " frames: %s; head 1 had to wait %u times, a node was full %u times\n", frame, reelbook_answer_text(answer),
           waits, filled);
    answer = add_both(7, 500, 500);
    printf("the same frame twice: %s (%" PRIu64 ")\n", reelbook_answer_text(answer), answer);
    return 0;
}
