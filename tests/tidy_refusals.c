/* The refusals of Tidy, in their sequence: every mixture of what can be wrong. Valid as C99 and as C++11. */
#include "tidy.h"
#include "tidy_call.h"

enum { FAULTY_REEL = 7, FAULTY_SLOT = 1, FAULTY_SLOTS = 3, FAULTY_NODES = 70 };

/* What is wrong with a call, in the sequence in which it is refused, each in several variants. */
enum {
    IMAGE_LENGTH = 1,
    EDITION = 2,
    MAP_LENGTH = 4,
    SCRATCH_LENGTH = 8,
    SCRIPT_LENGTH = 16,
    TABLE = 32,
    NO_REEL = 64,
    CLAIM_OPEN = 128,
    MALFORMED = 256,
    NO_GROUP = 512,
    ALL_FAULTS = 1023,
    VARIANTS = 8
};

static uint64_t answer_due(unsigned faults) {
    return faults & IMAGE_LENGTH                                  ? REELBOOK_BAD_IMAGE :
           faults & EDITION                                       ? REELBOOK_BAD_EDITION :
           faults & (MAP_LENGTH | SCRATCH_LENGTH | SCRIPT_LENGTH) ? REELBOOK_BAD_BUFFER :
           faults & TABLE                                         ? REELBOOK_MALFORMED :
           faults & NO_REEL                                       ? REELBOOK_NO_REEL :
           faults & CLAIM_OPEN                                    ? REELBOOK_BUSY :
           faults & MALFORMED                                     ? REELBOOK_MALFORMED :
           faults & NO_GROUP                                      ? REELBOOK_NO_EMPTY_GROUP :
                                                                    REELBOOK_DONE;
}

/* A length, or a number that it does not go with. */
enum { LENGTHS = 3 };
static void set_numbers(struct book *b, unsigned variant) {
    static const uint64_t numbers[VARIANTS - LENGTHS][2] = {
        {FAULTY_SLOTS, 0}, {0, FAULTY_NODES}, {FAULTY_SLOTS, FAULTY_NODES + 1}, {REELBOOK_MAX_SLOTS + 1, FAULTY_NODES},
        {FAULTY_SLOTS, (UINT64_C(1) << 60) + FAULTY_NODES}}; /* eighty times that many words are as many, of 64 bits */
    if (variant >= LENGTHS) {
        b->image[REELBOOK_SLOTS_AT] = numbers[variant - LENGTHS][0];
        b->image[REELBOOK_NODES_AT] = numbers[variant - LENGTHS][1];
    }
}

/* Heads that are in nobody's way: idle, or in a state that is none, and about the reel's slot; or with a claim in another slot.
 * With a claim open one of the four, each in its turn, has it in this slot. */
static void set_heads(struct book *b, uint64_t slot, int claim_open, unsigned variant) {
    static const uint64_t idle[] = {REELBOOK_IDLE, REELBOOK_FILLED + 1, UINT64_MAX, (UINT64_C(1) << 32) + REELBOOK_CLAIMED};
    unsigned head;
    for (head = 0; head < REELBOOK_HEADS; head++) {
        uint64_t *record = &b->heads[REELBOOK_HEAD_WORDS * head];
        int here = (head + variant) % 2 == 0;
        record[REELBOOK_HEAD_STATE_AT] = here ? idle[(head + variant) / 2 % 4] : REELBOOK_CLAIMED + head % 2;
        record[REELBOOK_HEAD_SLOT_AT] = here ? slot : variant % 4 == 1 ? slot + (UINT64_C(1) << 32) : slot - 1;
        if (claim_open && head == variant % REELBOOK_HEADS) {
            record[REELBOOK_HEAD_STATE_AT] = variant / REELBOOK_HEADS % 2 == 0 ? REELBOOK_CLAIMED : REELBOOK_FILLED;
            record[REELBOOK_HEAD_SLOT_AT] = slot;
        }
    }
}

/* The reel has slot 1 and three nodes: its root, full, is node 1, and of its children, 2 and 3, the first may hold a frame. */
static void make_faulty(struct book *b, unsigned faults, unsigned variant) {
    static const uint64_t editions[] = {0, 3, (UINT64_C(1) << 32) + 1};
    unsigned rule = faults & TABLE ? EDITION_2 + variant % 2 : EDITION_1 + variant % 3;
    book_format_as(b, rule, FAULTY_SLOTS, FAULTY_NODES);
    equal(book_open(b, FAULTY_REEL - 1), REELBOOK_DONE, "open");
    equal(book_open(b, FAULTY_REEL), REELBOOK_DONE, "open");
    book_add(b, FAULTY_REEL, 0, 1, 65);
    if (!(faults & NO_GROUP)) {
        equal(book_remove(b, FAULTY_REEL, 64), REELBOOK_DONE, "remove");
    }
    equal(book_retire(b, FAULTY_REEL - 1), REELBOOK_DONE, "retire");
    set_heads(b, FAULTY_SLOT, (faults & CLAIM_OPEN) != 0, variant);
    if (faults & MALFORMED) {
        b->image[node_index(b, 1 + variant % 3, REELBOOK_NODE_LEVEL)] += variant < 3 ? 1 : UINT64_C(1) << 40;
    }
    if (faults & TABLE) {
        b->image[rule == OWN_TABLE ? REELBOOK_TABLE_AT + variant : REELBOOK_OWN_AT] += 2;
    }
    if (faults & EDITION) {
        b->image[REELBOOK_EDITION_AT] = editions[variant % 3];
    }
    if (faults & IMAGE_LENGTH) {
        set_numbers(b, variant);
    }
}

/* Every mixture of faults is refused for the first. The absent reel is one that was retired, or one that never was. */
static void check_faults(unsigned faults, unsigned variant) {
    struct book b;
    struct call c;
    struct lengths l;
    struct group g = {1, 2, 2};
    make_faulty(&b, faults, variant);
    l = right_lengths(&b);
    l.image = lent_length(l.image, faults & IMAGE_LENGTH && variant < LENGTHS, variant);
    l.map = lent_length(l.map, faults & MAP_LENGTH, variant / 2);
    l.scratch = lent_length(l.scratch, faults & SCRATCH_LENGTH, variant / 2 + 1);
    l.script = faults & SCRIPT_LENGTH ? (variant % 2 == 0 ? REELBOOK_SCRIPT_WORDS - 1 : 0) : REELBOOK_SCRIPT_WORDS + variant % 2;
    lend_call(&c, &b, l, !(faults & NO_REEL) ? FAULTY_REEL : variant % 2 == 0 ? FAULTY_REEL - 1 : FAULTY_REEL + 1);
    check_call(&c, answer_due(faults), "tidy with something wrong");
    if (faults == 0) {
        check_given_back(&c, &b, &g);
    }
    call_back(&c);
    book_free(&b);
}

void check_tidy_refusals(void) {
    unsigned faults, variant;
    for (faults = 0; faults <= ALL_FAULTS; faults++) {
        for (variant = 0; variant < VARIANTS; variant++) {
            check_faults(faults, variant);
        }
    }
}
