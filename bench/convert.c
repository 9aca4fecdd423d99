/* Convert beside a plain copy of the image, and beside Recover where nothing is to be mended: the check that a conversion makes
 * first.
 *
 * 40 MiB are one image, ten or a hundred, each with its copy: as much is read and written, and the caches find the same, so that
 * a node takes the same time in each if the time is linear. The images are made word by word. Frames are drawn at random, and so
 * are the places held where nodes are half full. */
#include "converted.h"
#include "images.h"
#include "rounds.h"

#include <stdio.h>
#include <stdlib.h>
#include <string.h>

enum { SIZES = 3, KINDS = 3, PAGE_WORDS = 512, NODES_OF_REEL = 64 };

static const struct {
    enum contents contents;
    const char *name;
} kinds[KINDS] = {{FULL, "all full"}, {HALF_FULL, "all half full"}, {FEW_REACHED, "few reached"}};

enum work { CONVERT, COPY, RECOVER, WORKS };

static const size_t counts[SIZES] = {1, 10, 100};

/* So many images, each so many words after the one before. */
static struct {
    size_t count, apart, words, map_words;
    uint64_t nodes;
    uint64_t *images, *copies, *map;
} b;

static void fail(const char *what, const char *because) {
    fprintf(stderr, "convert: %s: %s\n", what, because);
    exit(1);
}

static void expect_done(const char *operation, uint64_t answer) {
    if (answer != REELBOOK_DONE)
        fail(operation, reelbook_answer_text(answer));
}

static void make_images(size_t count, enum contents contents, unsigned rule) {
    struct plan p = {contents, rule, REELBOOK_MAX_NODES / count / NODES_OF_REEL, REELBOOK_MAX_NODES / count};
    b.count = count;
    b.nodes = p.nodes;
    b.words = reelbook_image_words(p.slots, p.nodes);
    b.map_words = reelbook_map_words(p.nodes);
    b.apart = (b.words + PAGE_WORDS - 1) / PAGE_WORDS * PAGE_WORDS;
    b.images = junk(b.apart * count);
    b.copies = junk(b.apart * count);
    b.map = junk(b.map_words);
    for (size_t at = 0; at < b.apart * count; at += b.apart)
        make_image(b.images + at, &p);
}

static void free_images(void) {
    free(b.images);
    free(b.copies);
    free(b.map);
}

static void do_work(size_t work) {
    uint64_t heads[REELBOOK_HEADS_WORDS];
    for (size_t at = 0; at < b.apart * b.count; at += b.apart)
        if (work == CONVERT)
            expect_done("convert", reelbook_convert(b.images + at, b.words, b.copies + at, b.words, b.map, b.map_words));
        else if (work == RECOVER)
            expect_done("recover", reelbook_recover(b.images + at, b.words, b.map, b.map_words, heads));
        else
            memcpy(b.copies + at, b.images + at, b.words * sizeof *b.copies);
}

/* Each word of each copy, by the specification. */
static void check(void) {
    memset(b.copies, JUNK, b.apart * b.count * sizeof *b.copies);
    do_work(CONVERT);
    for (size_t at = 0; at < b.apart * b.count; at += b.apart)
        if (differs(b.copies + at, b.images + at, b.words) != 0)
            fail("convert", "a copy is not what it has to be");
}

static void print_row(size_t kind, unsigned rule) {
    double ns[WORKS][ROUNDS];
    printf("%-13s %7s", kinds[kind].name, rule == EDITION_1 ? "1 to 2" : "2 to 1");
    for (size_t i = 0; i < SIZES; i++) {
        make_images(counts[i], kinds[kind].contents, rule);
        take_turns(WORKS, do_work, ns);
        check();
        double time = median(ns[CONVERT]);
        if (i == 0)
            printf(" %8.1f %8.2f %10.2f", time / 1e6, median_ratio(ns[CONVERT], ns[COPY]),
                   median_ratio(ns[CONVERT], ns[RECOVER]));
        printf(" %9.0f", time / (double)(b.nodes * b.count));
        fflush(stdout);
        free_images();
    }
    printf("\n");
}

int main(void) {
    printf("A conversion of 40 MiB, 65,536 nodes: milliseconds, and how many times as long as a plain copy and as Recover.\n"
           "Nanoseconds for a node of the image, where these are 1, 10 and 100 images:\n\n");
    printf("%-13s %7s %8s %8s %10s %9s %9s %9s\n", "nodes", "edition", "ms", "/ copy", "/ Recover", "ns, 1", "ns, 10", "ns, 100");
    for (size_t kind = 0; kind < KINDS; kind++) {
        print_row(kind, EDITION_1);
        print_row(kind, EDITION_2);
    }
    return 0;
}
