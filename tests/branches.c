/* Which instructions Has, Remove, Claim and Fill execute does not, in either edition or with an own table, depend on a bit of the
 * frame, nor in Recover, at some levels, on the child to which a held frame goes: a branch on a bit would often be mispredicted.
 * Which entries of a table are read does depend on the frame, and is no branch. A call is made one instruction at a time, by the
 * trap flag, and the addresses of its instructions, in their sequence, are taken together in one number, its trace. In the trees
 * here nothing but the child numbers tells the path of one frame from that of another: the nodes of a level have all children in
 * common, and no node has the frame's fingerprint. Recover would refuse such a tree; it gets one with a single path. Linux on
 * x86-64. */
#define _GNU_SOURCE
#include <stdio.h>

#if defined __linux__ && defined __x86_64__

#include "book.h"
#include "traps.h"

#include <ucontext.h>

enum { REEL = 7, NODES = 1 + 3 * 2 + 28 * 4 };

/* Frames in which every bit is 0 and 1, and every two bits are 00, 01, 10 and 11. */
enum { BITS = 64, FRAMES = 14 };
static uint64_t frames[FRAMES];

static struct book b;
static volatile sig_atomic_t tracing;
static volatile uint64_t trace;

/* After each instruction, while a call is traced. */
static void on_step(int number, siginfo_t *info, void *context) {
    greg_t *registers = ((ucontext_t *)context)->uc_mcontext.gregs;
    (void)number;
    (void)info;
    if (!tracing) {
        registers[REG_EFL] &= ~(greg_t)TRAP_FLAG;
        return;
    }
    trace = (trace ^ (uint64_t)registers[REG_RIP]) * 0x100000001b3u;
    registers[REG_EFL] |= TRAP_FLAG;
}

/* What is called, and the answer that it gives. */
typedef uint64_t call(uint64_t frame);

static uint64_t has(uint64_t frame) {
    return reelbook_has(b.image, b.image_words, REEL, frame, &b.yes, &b.nodes);
}

static uint64_t take_out(uint64_t frame) {
    return reelbook_remove(b.image, b.image_words, b.heads, b.script, REELBOOK_SCRIPT_WORDS, REEL, frame, &b.used);
}

static uint64_t claim(uint64_t frame) {
    return reelbook_claim(b.image, b.image_words, b.map, b.map_words, b.heads, b.script, REELBOOK_SCRIPT_WORDS, 0, REEL, frame,
                          &b.used, &b.left);
}

/* As after a claim of place 0 of node 0. */
static uint64_t fill(uint64_t frame) {
    b.heads[REELBOOK_HEAD_STATE_AT] = REELBOOK_CLAIMED;
    b.heads[REELBOOK_HEAD_FRAME_AT] = frame;
    return reelbook_fill(b.image, b.image_words, b.heads, b.script, REELBOOK_SCRIPT_WORDS, 0, &b.used);
}

static uint64_t recover(uint64_t frame) {
    (void)frame;
    return reelbook_recover(b.image, b.image_words, b.map, b.map_words, b.heads);
}

/* The fault that is to be found. */
static volatile unsigned branch_bit;
static volatile unsigned taken;
static uint64_t branch(uint64_t frame) {
    if (frame >> branch_bit & 1) {
        taken = taken + 1;
    }
    return REELBOOK_DONE;
}

/* What is traced. Volatile, and the function behind not inlined, so that its own instructions are the same for every call. */
static call *volatile traced;
static volatile uint64_t traced_frame, answer;

/* The breakpoint makes the first trap. */
__attribute__((noinline)) static void run_traced(void) {
    trace = 0xcbf29ce484222325u;
    tracing = 1;
    __asm__ volatile("int3" ::: "memory");
    answer = traced(traced_frame);
    tracing = 0;
}

/* By the image's rule. */
static unsigned rule;
static unsigned print_of(uint64_t frame) {
    return fingerprint(rule, frame);
}

/* A node with its bitmaps, and one fingerprint at all places. */
static void make_node(uint64_t node, uint64_t level, uint64_t next, uint64_t set, unsigned print) {
    uint64_t *words = &b.image[node_index(&b, node, 0)];
    memset(words, 0, REELBOOK_NODE_WORDS * sizeof *words);
    words[REELBOOK_NODE_NEXT] = next;
    words[REELBOOK_NODE_LOCATE] = words[REELBOOK_NODE_SET] = set;
    words[REELBOOK_NODE_LEVEL] = level;
    words[REELBOOK_NODE_SIZE] = 64;
    memset(&words[REELBOOK_NODE_FINGERPRINTS], (int)print, 64);
}

/* A tree of full nodes whose paths all end at the level `last`, for a frame that it does not hold. The other nodes are free. */
static void make_tree(uint64_t last, uint64_t frame) {
    uint64_t level, node, first = 0, count = 1;
    memset(b.map, 0, b.map_words * sizeof *b.map);
    for (level = 0; level <= last; level++) {
        for (node = first; node < first + count; node++) {
            make_node(node, level, level < last ? first + count + 1 : 0, UINT64_MAX, print_of(frame) ^ 255);
            b.map[node / 64] |= (uint64_t)1 << node % 64;
        }
        first += count;
        count = fanout(level);
    }
}

/* A sound tree that holds one frame, at the level `last`: the frame's bits that lead there are 0, and so does the path go to the
 * first child each time. That node has children too, to one of which the frame goes on. */
static void make_path(uint64_t last, uint64_t frame) {
    uint64_t level, sibling, node = 0, first = 1;
    for (level = 0; level <= last; level++) {
        make_node(node, level, first + 1, level == last, print_of(frame));
        for (sibling = 0; sibling < fanout(level); sibling++) {
            make_node(first + sibling, level + 1, 0, 0, print_of(frame) ^ 255);
        }
        b.image[node_index(&b, node, REELBOOK_NODE_FRAMES)] = frame;
        node = first;
        first += fanout(level);
    }
}

/* Of each pair the second is the complement; bit i of the frames 2 + 2k is bit k of i. */
static void choose_frames(void) {
    uint64_t bit;
    size_t i;
    for (i = 0; i < FRAMES; i += 2) {
        for (bit = 0; bit < BITS; bit++) {
            frames[i] |= (i == 0 ? 0 : bit >> (i / 2 - 1) & 1) << bit;
        }
        frames[i + 1] = ~frames[i];
    }
}

/* A call's trace, once its answer is the one due. */
static uint64_t checked_trace(call *made, uint64_t frame, uint64_t due) {
    memset(b.heads, 0, sizeof b.heads);
    traced = made;
    traced_frame = frame;
    run_traced();
    equal(answer, due, "answer");
    return trace;
}

/* The same on a tree made for the frame. */
static uint64_t trace_on(uint64_t last, call *made, uint64_t frame, uint64_t due) {
    make_tree(last, frame);
    return checked_trace(made, frame, due);
}

/* How many frames have another trace than the first, on paths down to level 31. */
static uint64_t differing(call *made, uint64_t due) {
    uint64_t first = trace_on(LAST_LEVEL, made, frames[0], due), count = 0;
    size_t i;
    for (i = 1; i < FRAMES; i++) {
        count += trace_on(LAST_LEVEL, made, frames[i], due) != first;
    }
    return count;
}

/* Every child to which a claim can go from a node of this level that has none yet. */
static void check_claims(uint64_t level) {
    uint64_t above, number, used = 1, first = 0;
    for (above = 0; above < level; above++) {
        used += fanout(above);
    }
    for (number = 0; number < fanout(level); number++) {
        uint64_t frame = frame_to(level, number), found = trace_on(level, claim, frame, REELBOOK_DONE);
        first = number == 0 ? found : first;
        equal(found, first, "trace of a claim that branches out");
        equal(head_word(&b, 0, REELBOOK_HEAD_NODE_AT), used + child_of(level, frame), "the frame's new child");
        equal(child_of(level, frame), number, "its number");
    }
}

/* Every child to which a frame held at this level goes. */
static void check_recovery(uint64_t level) {
    uint64_t number, first = 0;
    for (number = 0; number < fanout(level); number++) {
        uint64_t found;
        make_path(level, frame_to(level, number));
        found = checked_trace(recover, 0, REELBOOK_DONE);
        first = number == 0 ? found : first;
        equal(found, first, "trace of a recovery");
    }
}

static void check_rule(void) {
    uint64_t level;
    book_go_by(&b, rule);
    equal(differing(has, REELBOOK_DONE), 0, "frames for which Has goes another way");
    equal(b.nodes, LAST_LEVEL + 1, "nodes on the path of the last of them");
    equal(differing(take_out, REELBOOK_NOT_HELD), 0, "frames for which Remove goes another way");
    equal(differing(claim, REELBOOK_MALFORMED), 0, "frames for which Claim goes another way");
    equal(differing(fill, REELBOOK_DONE), 0, "frames for which Fill goes another way");
    for (level = 0; level < LAST_LEVEL; level++) {
        check_claims(level);
    }
    for (level = 0; level < LAST_LEVEL; level += 10) {
        check_recovery(level);
    }
}

int main(void) {
    choose_frames();
    book_format(&b, 1, NODES);
    equal(book_open(&b, REEL), REELBOOK_DONE, "open");
    handle(SIGTRAP, on_step);
    for (rule = EDITION_1; rule <= OWN_TABLE; rule++) {
        check_rule();
    }
    for (branch_bit = 0; branch_bit < BITS; branch_bit++) {
        equal(differing(branch, REELBOOK_DONE), FRAMES / 2, "frames for which a branch on a bit goes another way");
    }
    book_free(&b);
    printf("branches: %u checks, %u failures\n", checks, failures);
    return failures != 0;
}

#else

int main(void) {
    puts("skipped: branches on a frame's bits, because they are watched by a way of Linux on x86-64");
    return 0;
}

#endif
