/* How many bytes of stack each function needs, arguments and return address included: it is called on a stack of its own that is
 * painted before, and what has another colour afterwards was used. The trees are as deep as there can be, since Recover, List,
 * Retire, Tidy and Convert go down them by calls. stack RULE prints a line for each function, on images that go by this rule: 1
 * or 2, an edition, or own, an own table. */
#define _XOPEN_SOURCE 600 /* for ucontext.h */
#include <stdio.h>
#include <stdlib.h>
#include <string.h>
#include <ucontext.h>

#include "book.h"

enum { STACK_WORDS = 8192, COLOUR = 0x5c };

static uint64_t stack[STACK_WORDS];
static ucontext_t outside, inside;
static struct book deep, wide, *b = &deep;
static const void *top;
static uint64_t *copy, module[REELBOOK_MODULE_WORDS];
static unsigned rule;
static uint64_t answer, module_used;
static uint8_t table[REELBOOK_TABLE_BYTES];
static size_t table_bytes;

/* The bytes of stack below top that a call has used. */
static size_t stack_of(void (*call)(void)) {
    size_t lowest = 0;
    uint64_t colour;
    memset(stack, COLOUR, sizeof stack);
    colour = stack[0];
    getcontext(&inside);
    inside.uc_stack.ss_sp = stack;
    inside.uc_stack.ss_size = sizeof stack;
    inside.uc_link = &outside;
    makecontext(&inside, call, 0);
    swapcontext(&outside, &inside);
    while (lowest < STACK_WORDS && stack[lowest] == colour) {
        lowest++;
    }
    return (size_t)((const char *)top - (const char *)&stack[lowest]);
}

/* The slices that a call is lent. */
#define IMAGE b->image, b->image_words
#define MAP b->map, b->map_words
#define SCRATCH b->scratch, b->map_words
#define SCRIPT b->script, REELBOOK_SCRIPT_WORDS

/* What runs on the painted stack. The frame's address is above the arguments that are passed on the stack. */
#define CALL(name, ...) \
    static void call_##name(void) { \
        top = __builtin_frame_address(0); \
        answer = reelbook_##name(__VA_ARGS__); \
    }

CALL(format, IMAGE, MAP, b->heads, table, table_bytes, 1, DEEP_NODES)
CALL(recover, IMAGE, MAP, b->heads)
CALL(open, IMAGE, MAP, SCRIPT, 7, &b->used)
CALL(claim, IMAGE, MAP, b->heads, SCRIPT, 0, 7, 8 * 256, &b->used, &b->left)
CALL(fill, IMAGE, b->heads, SCRIPT, 0, &b->used)
CALL(commit, IMAGE, b->heads, SCRIPT, 0, &b->used)
CALL(abandon, IMAGE, b->heads, SCRIPT, 0, &b->used)
CALL(remove, IMAGE, b->heads, SCRIPT, 7, UINT64_C(31) << 59, &b->used)
CALL(has, IMAGE, 7, UINT64_C(31) << 59, &b->yes, &b->nodes)
CALL(list, IMAGE, SCRATCH, b->list, LIST_WORDS, 7, &b->count)
CALL(retire, IMAGE, MAP, b->heads, SCRATCH, SCRIPT, 7, &b->used)
CALL(tidy, IMAGE, MAP, b->heads, SCRATCH, SCRIPT, 7, &b->used)
CALL(convert, IMAGE, copy, b->image_words, SCRATCH)
CALL(apply, IMAGE, b->script, (size_t)b->used)
CALL(translate, b->script, (size_t)b->used, module, REELBOOK_MODULE_WORDS, b->image_words, &module_used)

/* Calls, in a sequence in which each is answered; its script is carried out. */
static size_t measured(void (*call)(void), int has_script) {
    size_t bytes = stack_of(call);
    equal(answer, REELBOOK_DONE, "the answer of a measured call");
    if (has_script) {
        equal(reelbook_apply(IMAGE, b->script, (size_t)b->used), REELBOOK_DONE, "apply");
    }
    return bytes;
}

static void line(const char *name, size_t bytes) {
    printf("reelbook_%s %zu\n", name, bytes);
}

/* In wide, frame 8 * 256 needs a branch-out, with the longest script, which is translated too; in deep it goes down the whole
 * path. */
static void measure_claim(void) {
    size_t in_deep = measured(call_claim, 1), in_wide;
    b = &wide;
    book_format_as(b, rule, 1, DEEP_NODES);
    equal(book_open(b, 7), REELBOOK_DONE, "open");
    book_add(b, 7, 0, 8, 256);
    in_wide = measured(call_claim, 1);
    equal(b->used, REELBOOK_SCRIPT_WORDS, "the longest script");
    line("translate", measured(call_translate, 0));
    book_free(b);
    b = &deep;
    line("claim", in_deep > in_wide ? in_deep : in_wide);
}

/* An own table is refused last, when all of the image has been walked through. */
static void measure_convert(void) {
    size_t bytes;
    copy = junk(b->image_words);
    bytes = stack_of(call_convert);
    equal(answer, rule == OWN_TABLE ? REELBOOK_HAS_OWN_TABLE : REELBOOK_DONE, "the answer of a measured conversion");
    line("convert", bytes);
    free(copy);
}

/* Without its frame, which was removed, the last level is an empty group. It stays there, so that Retire finds all levels. */
static void measure_tidy(void) {
    line("tidy", measured(call_tidy, 0));
    equal(b->image[b->script[0] + REELBOOK_NODE_LEVEL], LAST_LEVEL - 1, "the level of the node that loses its children");
}

int main(int count, char **words) {
    const char *word = count == 2 ? words[1] : "";
    rule = strcmp(word, "own") == 0 ? OWN_TABLE : strcmp(word, "1") == 0 ? EDITION_1 : EDITION_2;
    own_table(table);
    table_bytes = rule == OWN_TABLE ? sizeof table : 0;
    book_make_deep(b, rule);
    line("recover", measured(call_recover, 0));
    line("has", measured(call_has, 0));
    equal(b->yes, 1, "the deepest frame is held");
    equal(b->nodes, LAST_LEVEL + 1, "a node at each level");
    line("list", measured(call_list, 0));
    equal(b->count, LAST_LEVEL + 1, "a frame at each level");
    measure_convert();
    measure_claim();
    line("abandon", measured(call_abandon, 1));
    measured(call_claim, 1);
    line("fill", measured(call_fill, 1));
    line("commit", measured(call_commit, 1));
    line("remove", measured(call_remove, 1));
    line("apply", measured(call_apply, 0));
    measure_tidy();
    line("retire", measured(call_retire, 1));
    line("open", measured(call_open, 1));
    line("format", measured(call_format, 0));
    book_free(b);
    return failures != 0;
}
