/* Each operation by itself, in the cache: nanoseconds and instructions for a call of the present library, on an image without
 * and with its own table, and of an earlier build where there is one.
 *
 * All columns have one image. Its own table is the library's over again, so that nothing else is different with one: the
 * fingerprints are the same, and where a column has none, word 3 and the table's words are 0. Scripts are not carried out, and
 * each call of a batch has its own copy of map and heads, made before the clock starts: a call finds the same in every batch.
 *
 * Where code and stack lie makes more of a difference than most changes of the code. So each build is there four times, at four
 * places in a line of the cache, and each round has its stack elsewhere: the least counts. Linux on x86-64. */
#define _GNU_SOURCE
#include "../driver/medium.h"
#include "batches.h"
#include "traps.h"

#include <inttypes.h>
#include <stdio.h>
#include <stdlib.h>
#include <string.h>
#include <time.h>
#include <ucontext.h>

enum { PLACES = 4, ROUNDS = 128, TURN = 4, COUNTED = 8, PAGE = 4096, REEL = 1, OTHER_REEL = 2, HEAD = 0 };

static const char *const names[OPERATIONS] = {"Format", "Recover",  "Open",      "Claim", "Fill",   "Commit",  "Abandon",
                                              "Remove", "Has, hit", "Has, miss", "List",  "Retire", "Tidy, 18",
                                              "Translate, 50", "Translate, 4"};

static const struct column {
    const char *name;
    const struct build *builds[PLACES];
    int own;
} columns[] = {
#ifdef HAVE_BEFORE
    {"before", {&before_16, &before_32, &before_48, &before_64}, 0},
#endif
    {"now", {&now_16, &now_32, &now_48, &now_64}, 0},
    {"own table", {&now_16, &now_32, &now_48, &now_64}, 1},
};
enum { COLUMNS = sizeof columns / sizeof columns[0], OWN = COLUMNS - 1, NOW = COLUMNS - 2, BEFORE = 0, HAS_BEFORE = NOW != 0 };

/* Nanoseconds or instructions for a call, in each column and place. */
typedef double results[COLUMNS][PLACES];

/* The first that has the operation: an earlier build may have it not. */
static size_t first_column(enum operation o) {
    return columns[BEFORE].builds[0]->run[o] ? BEFORE : NOW;
}

static uint8_t table[REELBOOK_TABLE_BYTES];
static uint64_t *image, *formatted; /* with the reel; Format's */
static struct batch b;
static struct call loaded, fresh[OPERATIONS][CALLS];

static void fail(const char *what, const char *because) {
    fprintf(stderr, "operations: %s: %s\n", what, because);
    exit(1);
}

static void expect_done(const char *operation, uint64_t answer) {
    if (answer != REELBOOK_DONE)
        fail(operation, reelbook_answer_text(answer));
}

static uint64_t *new_image(void) {
    size_t bytes = (b.image_words * sizeof(uint64_t) + PAGE - 1) / PAGE * PAGE;
    uint64_t *words = aligned_alloc(PAGE, bytes);
    if (!words)
        fail("memory", "none");
    memset(words, 0, bytes);
    return words;
}

/* Numbers spread over all bits. */
static uint64_t frame_number(uint64_t i) {
    uint64_t z = (i + 1) * 0x9e3779b97f4a7c15;
    return z ^ z >> 29;
}

static void carry_out(void) {
    expect_done("apply", reelbook_apply(image, b.image_words, b.script, (size_t)b.number));
}

static void claim(struct call *c) {
    expect_done("claim", reelbook_claim(image, b.image_words, c->map, MAP_WORDS, c->heads, b.script, REELBOOK_SCRIPT_WORDS, HEAD,
                                        REEL, c->frame, &b.number, &b.left));
}

static void fill(struct call *c) {
    expect_done("fill", reelbook_fill(image, b.image_words, c->heads, b.script, REELBOOK_SCRIPT_WORDS, HEAD, &b.number));
}

static void commit(struct call *c) {
    expect_done("commit", reelbook_commit(image, b.image_words, c->heads, b.script, REELBOOK_SCRIPT_WORDS, HEAD, &b.number));
}

/* A book with one reel, without frames. */
static void start(void) {
    expect_done("format", reelbook_format(image, b.image_words, loaded.map, MAP_WORDS, loaded.heads, NULL, 0, SLOTS, NODES));
    expect_done("open",
                reelbook_open(image, b.image_words, loaded.map, MAP_WORDS, b.script, REELBOOK_SCRIPT_WORDS, REEL, &b.number));
    carry_out();
}

static void add(uint64_t frame) {
    loaded.frame = frame;
    claim(&loaded);
    carry_out();
    fill(&loaded);
    carry_out();
    commit(&loaded);
    carry_out();
}

/* A book with one reel of so many frames. */
static void load(uint64_t frames) {
    start();
    for (uint64_t i = 0; i < frames; i++)
        add(frame_number(i));
}

/* What Translate gets: the scripts of a claim that branches out into four children, and of a commit, a store and a barrier.
 * Multiples of 8 agree in three bits and fill four levels. */
static void make_scripts(void) {
    start();
    for (uint64_t i = 0; i < 256; i++)
        add(8 * i);
    memcpy(b.shortest, b.script, sizeof b.shortest);
    loaded.frame = 8 * 256;
    claim(&loaded);
    if (b.number != REELBOOK_SCRIPT_WORDS)
        fail("claim", "this is not the longest script");
    memcpy(b.longest, b.script, sizeof b.longest);
    memset(&loaded, 0, sizeof loaded);
}

/* What the calls of each operation find. Frames of all ages are removed and looked up, new ones claimed and missed. */
static void prepare_calls(uint64_t frames) {
    for (enum operation o = 0; o < OPERATIONS; o++)
        for (uint64_t i = 0; i < CALLS; i++) {
            struct call *c = &fresh[o][i];
            *c = loaded;
            c->frame = frame_number(o == REMOVE || o == HIT ? i * 631 % frames : frames + i);
            if (o == FILL || o == COMMIT || o == ABANDON)
                claim(c);
            if (o == COMMIT)
                fill(c);
        }
}

static void prepare_batch(enum operation o, int own, size_t count) {
    memcpy(b.calls, fresh[o], sizeof b.calls);
    b.number = b.left = b.nodes = 0;
    b.count = count;
    b.reel = o == OPEN ? OTHER_REEL : REEL;
    b.image = o == FORMAT ? formatted : image;
    b.table = own ? table : NULL;
    b.table_bytes = own ? sizeof table : 0;
    image[REELBOOK_OWN_AT] = (uint64_t)own;
    memset(&image[REELBOOK_TABLE_AT], 0, sizeof table);
    if (own)
        memcpy(&image[REELBOOK_TABLE_AT], table, sizeof table);
}

static double now(void) {
    struct timespec t;
    clock_gettime(CLOCK_MONOTONIC, &t);
    return (double)t.tv_sec * 1e9 + (double)t.tv_nsec;
}

/* Some batches in a row: from the second on the code is in the cache. */
static double time_turn(enum operation o, const struct build *build, int own) {
    double least = 0;
    for (int i = 0; i < TURN; i++) {
        prepare_batch(o, own, CALLS);
        double start = now();
        uint64_t answers = build->run[o](&b);
        double time = (now() - start) / CALLS;
        expect_done(names[o], answers);
        if (i == 0 || time < least)
            least = time;
    }
    return least;
}

static double time_turn_below(size_t stack, enum operation o, const struct build *build, int own) {
    volatile int below[stack];
    below[0] = own;
    return time_turn(o, build, below[0]);
}

/* The columns and places take turns, and another one starts each time. */
static void measure(results ns[OPERATIONS]) {
    for (size_t k = 0; k < ROUNDS; k++)
        for (enum operation o = 0; o < OPERATIONS; o++)
            for (size_t turn = 0; turn < COLUMNS * PLACES; turn++) {
                size_t at = (turn + k) % (COLUMNS * PLACES), c = at / PLACES, place = at % PLACES;
                if (c < first_column(o))
                    continue;
                double time = time_turn_below(1 + k * (PAGE / sizeof(int) / ROUNDS), o, columns[c].builds[place], columns[c].own);
                if (k == 0 || time < ns[o][c][place])
                    ns[o][c][place] = time;
            }
}

static volatile sig_atomic_t counting;
static volatile uint64_t steps;

/* After each instruction, while a batch is counted. */
static void on_step(int number, siginfo_t *info, void *context) {
    greg_t *registers = ((ucontext_t *)context)->uc_mcontext.gregs;
    (void)number, (void)info;
    steps = steps + 1;
    if (counting)
        registers[REG_EFL] |= TRAP_FLAG;
    else
        registers[REG_EFL] &= ~(greg_t)TRAP_FLAG;
}

/* The breakpoint makes the first trap. */
static uint64_t count_steps(enum operation o, const struct build *build, int own, size_t calls) {
    prepare_batch(o, own, calls);
    steps = 0;
    counting = 1;
    __asm__ volatile("int3" ::: "memory");
    uint64_t answers = build->run[o](&b);
    counting = 0;
    expect_done(names[o], answers);
    return steps;
}

/* Every column is to do the same, for the fingerprints are the same. What the build of the first does not tell is left out. */
static void count(results instructions[OPERATIONS]) {
    static struct batch first;
    for (enum operation o = 0; o < OPERATIONS; o++)
        for (size_t c = first_column(o); c < COLUMNS; c++) {
            uint64_t without = count_steps(o, columns[c].builds[0], columns[c].own, 0);
            uint64_t with = count_steps(o, columns[c].builds[0], columns[c].own, COUNTED);
            for (size_t place = 0; place < PLACES; place++)
                instructions[o][c][place] = (double)(with - without) / COUNTED;
            b.table = NULL;
            b.table_bytes = 0;
            b.nodes = columns[0].builds[0]->tells_nodes ? b.nodes : 0;
            if (c == first_column(o))
                first = b;
            else if (memcmp(&first, &b, sizeof b) != 0)
                fail(names[o], "two columns do not do the same");
        }
}

static double least(const double *places) {
    double x = places[0];
    for (size_t i = 1; i < PLACES; i++)
        x = places[i] < x ? places[i] : x;
    return x;
}

/* How much equal builds differ, by their places. */
static double spread(const double *places) {
    double x = places[0];
    for (size_t i = 1; i < PLACES; i++)
        x = places[i] > x ? places[i] : x;
    return x - least(places);
}

static void print_row(enum operation o, results of, int digits) {
    size_t from = first_column(o);
    double of_now = spread(of[NOW]), of_before = spread(of[from]);
    printf("%-13s", names[o]);
    for (size_t c = 0; c < from; c++)
        printf(" %9s", "-");
    for (size_t c = from; c < COLUMNS; c++)
        printf(" %9.*f", digits, least(of[c]));
    if (HAS_BEFORE && from == BEFORE)
        printf(" %+12.*f", digits, least(of[NOW]) - least(of[BEFORE]));
    else if (HAS_BEFORE)
        printf(" %12s", "-");
    printf(" %+9.*f %12.*f\n", digits, least(of[OWN]) - least(of[NOW]), digits, of_now > of_before ? of_now : of_before);
}

static void print(results values[OPERATIONS], int digits) {
    printf("%-13s", "");
    for (size_t c = 0; c < COLUMNS; c++)
        printf(" %9s", columns[c].name);
    printf("%s %9s %12s\n", HAS_BEFORE ? " now - before" : "", "own - now", "equal builds");
    for (enum operation o = 0; o < OPERATIONS; o++)
        print_row(o, values[o], digits);
    printf("\n");
}

/* A store, a flush of its line and a fence, as the driver makes them, each in another line of the cache. */
static double time_barrier(void) {
    struct medium m = {.words = formatted, .length = b.image_words, .barrier = BARRIER_FLUSH};
    double least_time = 0;
    for (uint64_t k = 0; k < ROUNDS * TURN; k++) {
        double start_time = now();
        for (size_t i = 0; i < CALLS; i++) {
            medium_store(&m, i * REELBOOK_LINE_WORDS, k);
            medium_barrier(&m);
        }
        double time = (now() - start_time) / CALLS;
        if (k == 0 || time < least_time)
            least_time = time;
    }
    return least_time;
}

static void print_beside_barrier(results ns[OPERATIONS]) {
    double barrier = time_barrier();
    printf("A barrier of the driver, with a store, one line flushed and a fence: %.1f ns.\n"
           "Translate takes %.2f of one for 50 words, which have three barriers and six lines, and %.2f for 4 words.\n\n",
           barrier, least(ns[TRANSLATE_50][NOW]) / barrier, least(ns[TRANSLATE_4][NOW]) / barrier);
}

int main(void) {
    static const uint64_t reels[] = {10, 1000};
    static results values[OPERATIONS];
    for (unsigned i = 0; i < sizeof table; i++)
        table[i] = (uint8_t)(167 * i + 13);
    b.image_words = reelbook_image_words(SLOTS, NODES);
    image = new_image();
    formatted = new_image();
    handle(SIGTRAP, on_step);
    make_scripts();
    for (size_t i = 0; i < sizeof reels / sizeof reels[0]; i++) {
        load(reels[i]);
        prepare_calls(reels[i]);
        measure(values);
        printf("A reel of %" PRIu64 " frames. Nanoseconds for a call:\n\n", reels[i]);
        print(values, 1);
        print_beside_barrier(values);
        if (i > 0)
            continue; /* instructions of the smaller reel alone: to count them takes long */
        count(values);
        printf("The same reel. Instructions for a call:\n\n");
        print(values, 0);
    }
    return 0;
}
