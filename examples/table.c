/* A mill's own table. Its frames have a count in both halves, of which the library's table makes few fingerprints. A table that
 * makes more of them is sought, and the book is formatted with it. */
#include <inttypes.h>
#include <stdio.h>
#include <string.h>

#include <reelbook.h>

enum {
    REELS = 4,
    NODES = 16,
    IMAGE_WORDS = REELBOOK_HEADER_WORDS + REELBOOK_SLOT_WORDS * REELS + REELBOOK_NODE_WORDS * NODES,
    MAP_WORDS = (NODES + 63) / 64,
    FRAMES = 256,
    TRIES = 100
};
static uint64_t image[IMAGE_WORDS], map[MAP_WORDS], heads[REELBOOK_HEADS_WORDS];

static uint64_t frame_of(uint64_t count) {
    return count << 32 | count;
}

/* A frame's fingerprint in edition 2. */
static uint8_t fingerprint(const uint8_t entries[REELBOOK_TABLE_BYTES], uint64_t frame) {
    uint8_t h = 0;
    for (int i = 0; i < 8; i++)
        h = entries[h ^ (frame >> 8 * i & 0xff)];
    return h;
}

/* How many fingerprints the mill's frames have: the more, the fewer frames a lookup compares in vain. */
static unsigned spread(const uint8_t entries[REELBOOK_TABLE_BYTES]) {
    unsigned char seen[REELBOOK_TABLE_BYTES] = {0};
    unsigned different = 0;
    for (uint64_t count = 0; count < FRAMES; count++)
        seen[fingerprint(entries, frame_of(count))] = 1;
    for (int i = 0; i < REELBOOK_TABLE_BYTES; i++)
        different += seen[i];
    return different;
}

/* Exchanges entries, so that each value still occurs once. */
static void shuffle(uint8_t entries[REELBOOK_TABLE_BYTES], uint64_t *state) {
    for (unsigned i = REELBOOK_TABLE_BYTES - 1; i > 0; i--) {
        *state = *state * UINT64_C(6364136223846793005) + UINT64_C(1442695040888963407);
        unsigned j = (unsigned)(*state >> 33) % (i + 1);
        uint8_t other = entries[j];
        entries[j] = entries[i];
        entries[i] = other;
    }
}

static uint64_t format(const uint8_t *entries) {
    return reelbook_format(image, IMAGE_WORDS, map, MAP_WORDS, heads, entries, REELBOOK_TABLE_BYTES, REELS, NODES);
}

int main(void) {
    uint8_t table[REELBOOK_TABLE_BYTES], best[REELBOOK_TABLE_BYTES];
    uint64_t state = 1;
    for (unsigned i = 0; i < REELBOOK_TABLE_BYTES; i++)
        table[i] = (uint8_t)(167 * i + 13); /* the library's */
    memcpy(best, table, sizeof best);
    printf("%d frames, fingerprints by the library's table: %u\n", FRAMES, spread(best));
    for (int tries = 0; tries < TRIES; tries++) {
        shuffle(table, &state);
        if (spread(table) > spread(best))
            memcpy(best, table, sizeof best);
    }
    printf("by the best of %d others: %u\n", TRIES, spread(best));
    uint64_t answer = format(best);
    printf("format: %s; word 3 is %" PRIu64 "\n", reelbook_answer_text(answer), image[REELBOOK_OWN_AT]);
    best[0] = best[1];
    answer = format(best);
    printf("with a value twice: %s (%" PRIu64 ")\n", reelbook_answer_text(answer), answer);
    return 0;
}
