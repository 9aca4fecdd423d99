/* Formats a book in ordinary memory and opens reel 7. A driver would then carry out the script. */
#include <inttypes.h>
#include <stdio.h>

#include <reelbook.h>

enum {
    REELS = 4,
    NODES = 16,
    IMAGE_WORDS = REELBOOK_HEADER_WORDS + REELBOOK_SLOT_WORDS * REELS + REELBOOK_NODE_WORDS * NODES,
    MAP_WORDS = (NODES + 63) / 64
};
static uint64_t image[IMAGE_WORDS], map[MAP_WORDS], heads[REELBOOK_HEADS_WORDS], script[REELBOOK_SCRIPT_WORDS], used;

int main(void) {
    uint64_t answer = reelbook_format(image, IMAGE_WORDS, map, MAP_WORDS, heads, NULL, 0, REELS, NODES);
    printf("format: %s\n", reelbook_answer_text(answer));
    answer = reelbook_open(image, IMAGE_WORDS, map, MAP_WORDS, script, REELBOOK_SCRIPT_WORDS, 7, &used);
    printf("open: %s, %" PRIu64 " words of script\n", reelbook_answer_text(answer), used);
    return answer != REELBOOK_DONE;
}
