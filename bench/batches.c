/* The batches of one build: compiled with its header and linked with it to one object, which hands out one name. AT is where the
 * object's code starts in a page. */
#include "batches.h"

#define TEXT_OF(x) #x
#define TEXT(x) TEXT_OF(x)
__asm__(".text\n.p2align 12\n.skip " TEXT(AT) "\n");

#define BATCH(name, answer)                                           \
    static uint64_t name(struct batch *b) {                           \
        uint64_t answers = REELBOOK_DONE;                             \
        for (struct call *c = b->calls; c < b->calls + b->count; c++) \
            answers |= (answer);                                      \
        return answers;                                               \
    }

#define IMAGE b->image, b->image_words
#define MAP c->map, MAP_WORDS
#define SCRATCH b->scratch, MAP_WORDS
#define SCRIPT b->script, REELBOOK_SCRIPT_WORDS

/* Builds before 4.0 know no own table. */
#if REELBOOK_VERSION_MAJOR < 4
#define TABLE
#else
#define TABLE b->table, b->table_bytes,
#endif

/* Builds before 5.0 do not tell the nodes on a path. */
#if REELBOOK_VERSION_MAJOR < 5
#define PATH_NODES
#else
#define PATH_NODES , &b->nodes
#endif

BATCH(format, reelbook_format(IMAGE, MAP, c->heads, TABLE SLOTS, NODES))
BATCH(recover, reelbook_recover(IMAGE, MAP, c->heads))
BATCH(open_reel, reelbook_open(IMAGE, MAP, SCRIPT, b->reel, &b->number))
BATCH(claim, reelbook_claim(IMAGE, MAP, c->heads, SCRIPT, 0, b->reel, c->frame, &b->number, &b->left))
BATCH(fill, reelbook_fill(IMAGE, c->heads, SCRIPT, 0, &b->number))
BATCH(commit, reelbook_commit(IMAGE, c->heads, SCRIPT, 0, &b->number))
BATCH(abandon, reelbook_abandon(IMAGE, c->heads, SCRIPT, 0, &b->number))
BATCH(take_out, reelbook_remove(IMAGE, c->heads, SCRIPT, b->reel, c->frame, &b->number))
BATCH(has, reelbook_has(IMAGE, b->reel, c->frame, &b->number PATH_NODES))
BATCH(list, reelbook_list(IMAGE, SCRATCH, b->list, LIST_WORDS, b->reel, &b->number))
BATCH(retire, reelbook_retire(IMAGE, MAP, c->heads, SCRATCH, SCRIPT, b->reel, &b->number))

/* Builds before 5.1 have no Tidy. There is no empty group: it is to walk through the whole reel twice, and answer 18. */
#if REELBOOK_VERSION_MAJOR < 5 || (REELBOOK_VERSION_MAJOR == 5 && REELBOOK_VERSION_MINOR < 1)
#define tidy NULL
#else
BATCH(tidy, reelbook_tidy(IMAGE, MAP, c->heads, SCRATCH, SCRIPT, b->reel, &b->number) ^ REELBOOK_NO_EMPTY_GROUP)
#endif

/* Builds before 5.2 have no Translate. */
#ifdef REELBOOK_FLUSH
#define MODULE b->module, MODULE_WORDS
BATCH(translate_50, reelbook_translate(b->longest, 50, MODULE, b->image_words, &b->number))
BATCH(translate_4, reelbook_translate(b->shortest, 4, MODULE, b->image_words, &b->number))
#else
#define translate_50 NULL
#define translate_4 NULL
#endif

const struct build build = {
    .run = {[FORMAT] = format, [RECOVER] = recover, [OPEN] = open_reel, [CLAIM] = claim, [FILL] = fill, [COMMIT] = commit,
            [ABANDON] = abandon, [REMOVE] = take_out, [HIT] = has, [MISS] = has, [LIST] = list, [RETIRE] = retire, [TIDY] = tidy,
            [TRANSLATE_50] = translate_50, [TRANSLATE_4] = translate_4},
    .tells_nodes = REELBOOK_VERSION_MAJOR >= 5,
};
