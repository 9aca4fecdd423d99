/* A book on a memory module with line flushes, which is simulated here: what of the image is lasting is kept beside it. */
#include <inttypes.h>
#include <stdio.h>
#include <string.h>

#include <reelbook.h>

enum {
    REELS = 4,
    NODES = 16,
    IMAGE_WORDS = REELBOOK_HEADER_WORDS + REELBOOK_SLOT_WORDS * REELS + REELBOOK_NODE_WORDS * NODES,
    MAP_WORDS = (NODES + 63) / 64,
    LINES = (IMAGE_WORDS + REELBOOK_LINE_WORDS - 1) / REELBOOK_LINE_WORDS
};
static uint64_t image[REELBOOK_LINE_WORDS * LINES] __attribute__((aligned(64))); /* lines count from its first word */
static uint64_t map[MAP_WORDS], heads[REELBOOK_HEADS_WORDS], used, left;
static uint64_t script[REELBOOK_SCRIPT_WORDS], module[REELBOOK_MODULE_WORDS];

/* The module: lines on their way, and what is lasting. On persistent memory of x86-64 flush is clwb, barrier is sfence. */
static uint64_t flushed[REELBOOK_LINE_WORDS * LINES], lasting[REELBOOK_LINE_WORDS * LINES];
static unsigned flushes;

static void store(uint64_t index, uint64_t value) {
    *(volatile uint64_t *)&image[index] = value;
}

static void flush(uint64_t line) {
    memcpy(&flushed[REELBOOK_LINE_WORDS * line], &image[REELBOOK_LINE_WORDS * line], REELBOOK_LINE_WORDS * sizeof *image);
    flushes++;
}

static void barrier(void) {
    memcpy(lasting, flushed, sizeof lasting);
}

/* Every operation with a script ends here: its script is translated, and the module's is carried out. */
static uint64_t carry_out(uint64_t answer) {
    if (answer == REELBOOK_DONE)
        answer = reelbook_translate(script, used, module, REELBOOK_MODULE_WORDS, IMAGE_WORDS, &used);
    for (uint64_t at = 0; answer == REELBOOK_DONE && at < used; at += 2)
        if (module[at] == REELBOOK_BARRIER)
            barrier();
        else if (module[at] == REELBOOK_FLUSH)
            flush(module[at + 1]);
        else
            store(module[at], module[at + 1]);
    return answer;
}

/* After Format and Recover, and over the copy after Convert: each line of that image, and then the barrier. */
static void barrier_over_image(void) {
    for (uint64_t line = 0; line < LINES; line++)
        flush(line);
    barrier();
}

static uint64_t add(uint64_t reel, uint64_t frame) {
    uint64_t answer = carry_out(reelbook_claim(image, IMAGE_WORDS, map, MAP_WORDS, heads, script, REELBOOK_SCRIPT_WORDS, 0, reel,
                                               frame, &used, &left));
    if (answer == REELBOOK_DONE)
        answer = carry_out(reelbook_fill(image, IMAGE_WORDS, heads, script, REELBOOK_SCRIPT_WORDS, 0, &used));
    if (answer == REELBOOK_DONE)
        answer = carry_out(reelbook_commit(image, IMAGE_WORDS, heads, script, REELBOOK_SCRIPT_WORDS, 0, &used));
    return answer;
}

/* The power is gone: the image is what was lasting. */
static uint64_t power_up(void) {
    memcpy(image, lasting, sizeof image);
    uint64_t answer = reelbook_recover(image, IMAGE_WORDS, map, MAP_WORDS, heads);
    barrier_over_image();
    return answer;
}

int main(void) {
    uint64_t yes = 0, nodes = 0, answer = reelbook_format(image, IMAGE_WORDS, map, MAP_WORDS, heads, NULL, 0, REELS, NODES);
    barrier_over_image();
    flushes = 0;
    if (answer == REELBOOK_DONE)
        answer = carry_out(reelbook_open(image, IMAGE_WORDS, map, MAP_WORDS, script, REELBOOK_SCRIPT_WORDS, 7, &used));
    if (answer == REELBOOK_DONE)
        answer = add(7, 12);
    printf("frame 12: %s, %u line flushes\n", reelbook_answer_text(answer), flushes);
    answer = power_up();
    printf("power lost, recovered: %s\n", reelbook_answer_text(answer));
    answer = reelbook_has(image, IMAGE_WORDS, 7, 12, &yes, &nodes);
    printf("frame 12: %s\n", answer == REELBOOK_DONE && yes ? "held" : "not held");
    answer = reelbook_translate(module, 4, script, REELBOOK_SCRIPT_WORDS, IMAGE_WORDS, &used);
    printf("into a shorter buffer: %s (%" PRIu64 ")\n", reelbook_answer_text(answer), answer);
    return 0;
}
