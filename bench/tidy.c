/* Tidy of a reel in which no group is empty, so that it walks through all nodes twice and answers 18, beside List of the same
 * reel.
 *
 * One image of 40 MiB has one reel, 16 or 256: as many nodes are walked through, and the caches find the same, so that a node
 * takes the same time in each if the time is linear. */
#include "images.h"
#include "rounds.h"

#include <stdio.h>
#include <stdlib.h>

enum { SIZES = 3, KINDS = 3 };

static const struct {
    enum contents contents;
    const char *name;
} kinds[KINDS] = {{FULL, "all full"}, {HALF_FULL, "all half full"}, {ONE_HELD, "a frame in each"}};

enum work { TIDY, LIST, WORKS };

static const uint64_t reels[SIZES] = {1, 16, 256};

static struct {
    size_t words, map_words, list_words;
    uint64_t slots;
    uint64_t *image, *map, *scratch, *list;
    uint64_t heads[REELBOOK_HEADS_WORDS], script[REELBOOK_SCRIPT_WORDS], number;
} b;

static void expect(const char *operation, uint64_t answer, uint64_t due) {
    if (answer == due)
        return;
    fprintf(stderr, "tidy: %s: %s\n", operation, reelbook_answer_text(answer));
    exit(1);
}

static void make_book(uint64_t slots, enum contents contents) {
    struct plan p = {contents, EDITION_2, slots, REELBOOK_MAX_NODES};
    b.slots = slots;
    b.words = reelbook_image_words(p.slots, p.nodes);
    b.map_words = reelbook_map_words(p.nodes);
    b.list_words = 64 * REELBOOK_MAX_NODES;
    b.image = junk(b.words);
    b.map = junk(b.map_words);
    b.scratch = junk(b.map_words);
    b.list = junk(b.list_words);
    make_image(b.image, &p);
    expect("recover", reelbook_recover(b.image, b.words, b.map, b.map_words, b.heads), REELBOOK_DONE);
}

static void free_book(void) {
    free(b.image);
    free(b.map);
    free(b.scratch);
    free(b.list);
}

static void do_work(size_t work) {
    for (uint64_t reel = 0; reel < b.slots; reel++)
        if (work == TIDY)
            expect("tidy",
                   reelbook_tidy(b.image, b.words, b.map, b.map_words, b.heads, b.scratch, b.map_words, b.script,
                                 REELBOOK_SCRIPT_WORDS, reel, &b.number),
                   REELBOOK_NO_EMPTY_GROUP);
        else
            expect("list",
                   reelbook_list(b.image, b.words, b.scratch, b.map_words, b.list, b.list_words, reel, &b.number),
                   REELBOOK_DONE);
}

static void print_row(size_t kind) {
    double ns[WORKS][ROUNDS];
    printf("%-15s", kinds[kind].name);
    for (size_t i = 0; i < SIZES; i++) {
        make_book(reels[i], kinds[kind].contents);
        take_turns(WORKS, do_work, ns);
        if (i == 0)
            printf(" %8.2f %8.2f", median(ns[TIDY]) / 1e6, median_ratio(ns[TIDY], ns[LIST]));
        printf(" %9.1f", median(ns[TIDY]) / REELBOOK_MAX_NODES);
        fflush(stdout);
        free_book();
    }
    printf("\n");
}

int main(void) {
    printf("Tidy of a reel of 65,536 nodes, none of them in an empty group: milliseconds, and how many times as long as List.\n"
           "Nanoseconds for a node, in reels of 65,536, 4,096 and 256 nodes:\n\n");
    printf("%-15s %8s %8s %9s %9s %9s\n", "nodes", "ms", "/ List", "65,536", "4,096", "256");
    for (size_t kind = 0; kind < KINDS; kind++)
        print_row(kind);
    return 0;
}
