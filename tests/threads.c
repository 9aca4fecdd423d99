/* Two books in two threads, of edition 1, of edition 2 or with an own table, not both alike, and again: each has, word for word,
 * what it has when it is alone. */
#include <pthread.h>
#include <stdio.h>
#include <stdlib.h>
#include <string.h>

#include "reelbook.h"

enum { THREADS = 2, ROUNDS = 10, REELS = 8, NODES = 512, FRAMES = 30000 };
enum { IMAGE_WORDS = REELBOOK_HEADER_WORDS + REELBOOK_SLOT_WORDS * REELS + REELBOOK_NODE_WORDS * NODES, MAP_WORDS = NODES / 64 };

struct book {
    uint64_t image[IMAGE_WORDS], copy[IMAGE_WORDS], map[MAP_WORDS], scratch[MAP_WORDS], heads[REELBOOK_HEADS_WORDS];
    uint64_t list[64 * NODES], script[REELBOOK_SCRIPT_WORDS], used, left, count;
    uint64_t seed, refused; /* and how many calls were */
    uint8_t table[REELBOOK_TABLE_BYTES];
};

static void carry_out(struct book *b, uint64_t answer) {
    b->refused += answer != REELBOOK_DONE;
    for (uint64_t at = 0; at < b->used; at += 2)
        if (b->script[at] != REELBOOK_BARRIER)
            b->image[b->script[at]] = b->script[at + 1];
}

#define IMAGE b->image, IMAGE_WORDS
#define MAP b->map, MAP_WORDS
#define SCRATCH b->scratch, MAP_WORDS
#define SCRIPT b->script, REELBOOK_SCRIPT_WORDS

/* A frame comes to a reel, another goes; some of these calls are refused. */
static void change(struct book *b, uint64_t random) {
    uint64_t head = (random >> 60) % REELBOOK_HEADS, reel = random >> 57 & 7, frame = random >> 40 & 4095;
    carry_out(b, reelbook_claim(IMAGE, MAP, b->heads, SCRIPT, head, reel, frame, &b->used, &b->left));
    carry_out(b, reelbook_fill(IMAGE, b->heads, SCRIPT, head, &b->used));
    carry_out(b, reelbook_commit(IMAGE, b->heads, SCRIPT, head, &b->used));
    carry_out(b, reelbook_remove(IMAGE, b->heads, SCRIPT, reel, random >> 20 & 4095, &b->used));
}

/* All frames of the listed reel go, and so do its nodes but for the root. */
static void empty(struct book *b, uint64_t reel) {
    for (uint64_t i = 0; i < b->count; i++)
        carry_out(b, reelbook_remove(IMAGE, b->heads, SCRIPT, reel, b->list[i], &b->used));
    do
        carry_out(b, reelbook_tidy(IMAGE, MAP, b->heads, SCRATCH, SCRIPT, reel, &b->used));
    while (b->used > 0);
}

static void *work(void *book) {
    struct book *b = (struct book *)book;
    uint64_t random = b->seed;
    for (unsigned i = 0; i < REELBOOK_TABLE_BYTES; i++)
        b->table[i] = (uint8_t)(29 * i + 7);
    b->refused = reelbook_format(IMAGE, MAP, b->heads, b->table, b->seed % 3 == 0 ? sizeof b->table : 0, REELS, NODES);
    if (b->seed % 3 == 1)
        b->image[REELBOOK_EDITION_AT] = REELBOOK_EDITION_1;
    for (uint64_t reel = 0; reel < REELS; reel++)
        carry_out(b, reelbook_open(IMAGE, MAP, SCRIPT, reel, &b->used));
    for (int i = 0; i < FRAMES; i++) {
        random = random * UINT64_C(6364136223846793005) + UINT64_C(1442695040888963407);
        change(b, random);
    }
    b->refused += reelbook_recover(IMAGE, MAP, b->heads);
    b->refused += reelbook_convert(IMAGE, b->copy, IMAGE_WORDS, SCRATCH) != REELBOOK_DONE; /* 17 for an own table */
    b->refused += reelbook_list(IMAGE, SCRATCH, b->list, 64 * NODES, 3, &b->count);
    empty(b, 3);
    carry_out(b, reelbook_retire(IMAGE, MAP, b->heads, SCRATCH, SCRIPT, 5, &b->used));
    return NULL;
}

static struct book *new_book(uint64_t seed) {
    struct book *b = (struct book *)calloc(1, sizeof *b);
    if (!b)
        exit(2);
    b->seed = seed;
    return b;
}

int main(void) {
    struct book *alone[THREADS], *together[THREADS];
    pthread_t threads[THREADS];
    int differing = 0;
    for (int round = 0; round < ROUNDS; round++) {
        for (int i = 0; i < THREADS; i++) {
            alone[i] = new_book((uint64_t)(round * THREADS + i));
            together[i] = new_book(alone[i]->seed);
            work(alone[i]);
        }
        for (int i = 0; i < THREADS; i++)
            if (pthread_create(&threads[i], NULL, work, together[i]) != 0)
                return 2;
        for (int i = 0; i < THREADS; i++) {
            pthread_join(threads[i], NULL);
            differing += memcmp(alone[i], together[i], sizeof *alone[i]) != 0 || alone[i]->count == 0;
            free(alone[i]);
            free(together[i]);
        }
    }
    printf("threads: %d books of %d differ\n", differing, THREADS * ROUNDS);
    return differing != 0;
}
