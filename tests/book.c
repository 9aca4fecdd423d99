#include "book.h"

#include <inttypes.h>
#include <stdio.h>
#include <stdlib.h>
#include <string.h>

unsigned checks, failures;

void equal(uint64_t found, uint64_t expected, const char *what) {
    checks++;
    if (found == expected) {
        return;
    }
    failures++;
    printf("%s: expected %" PRIu64 ", found %" PRIu64 "\n", what, expected, found);
}

uint64_t *zeroed(size_t words) {
    /* One more than asked for, so that no words are not no memory. */
    uint64_t *memory = (uint64_t *)calloc(words + 1, sizeof *memory);
    if (memory == NULL) {
        fprintf(stderr, "no memory for %zu words\n", words);
        exit(2);
    }
    return memory;
}

uint64_t *junk(size_t words) {
    uint64_t *memory = zeroed(words);
    memset(memory, JUNK, words * sizeof *memory);
    return memory;
}

uint64_t drawn(void) {
    static uint64_t state = 88172645463325252u;
    state ^= state << 13;
    state ^= state >> 7;
    state ^= state << 17;
    return state;
}

static void format(struct book *b, const uint8_t *table, size_t table_bytes, uint64_t slots, uint64_t nodes) {
    memset(b, JUNK, sizeof *b);
    b->image_words = reelbook_image_words(slots, nodes);
    b->map_words = reelbook_map_words(nodes);
    b->image = junk(b->image_words);
    b->map = junk(b->map_words);
    b->scratch = junk(b->map_words);
    equal(reelbook_format(b->image, b->image_words, b->map, b->map_words, b->heads, table, table_bytes, slots, nodes),
          REELBOOK_DONE, "format");
}

void book_format(struct book *b, uint64_t slots, uint64_t nodes) {
    format(b, NULL, 0, slots, nodes);
}

static unsigned entry(unsigned rule, unsigned index) {
    return rule == OWN_TABLE ? (29 * index + 7) % 256 : (167 * index + 13) % 256;
}

void own_table(uint8_t table[REELBOOK_TABLE_BYTES]) {
    unsigned index;
    for (index = 0; index < REELBOOK_TABLE_BYTES; index++) {
        table[index] = (uint8_t)entry(OWN_TABLE, index);
    }
}

void book_format_as(struct book *b, unsigned rule, uint64_t slots, uint64_t nodes) {
    uint8_t table[REELBOOK_TABLE_BYTES];
    own_table(table);
    format(b, table, rule == OWN_TABLE ? REELBOOK_TABLE_BYTES : 0, slots, nodes);
    if (rule == EDITION_1) {
        b->image[REELBOOK_EDITION_AT] = REELBOOK_EDITION_1;
    }
}

/* Words 3 and 8 to 39 by the specification's layout. */
void book_go_by(struct book *b, unsigned rule) {
    unsigned index;
    b->image[REELBOOK_EDITION_AT] = rule == EDITION_1 ? REELBOOK_EDITION_1 : REELBOOK_EDITION_2;
    b->image[3] = rule == OWN_TABLE;
    for (index = 0; index < REELBOOK_TABLE_BYTES; index++) {
        b->image[8 + index / 8] &= ~((uint64_t)255 << 8 * (index % 8));
        b->image[8 + index / 8] |= (uint64_t)(rule == OWN_TABLE ? entry(rule, index) : 0) << 8 * (index % 8);
    }
}

unsigned fingerprint(unsigned rule, uint64_t frame) {
    unsigned h = 0, byte, bytes = rule == EDITION_1 ? 4 : 8;
    for (byte = 0; byte < bytes; byte++) {
        h = entry(rule, h ^ (unsigned)(frame >> 8 * byte & 255));
    }
    return h;
}

uint64_t fanout(uint64_t level) {
    return level == LAST_LEVEL ? 0 : level < 3 ? 2 : 4;
}

uint64_t child_of(uint64_t level, uint64_t frame) {
    return level < 3 ? frame >> level & 1 : (frame >> (2 * level - 3) & 1) + 2 * (frame >> (2 * level - 2) & 1);
}

uint64_t frame_to(uint64_t level, uint64_t number) {
    return number << (level < 3 ? level : 2 * level - 3);
}

void book_free(struct book *b) {
    free(b->image);
    free(b->map);
    free(b->scratch);
}

/* Where a count is handed back, with junk in it. */
static uint64_t *fresh(uint64_t *count) {
    memset(count, JUNK, sizeof *count);
    return count;
}

/* Carries the script out as a driver does. A refused call hands back none. */
static uint64_t carried_out(struct book *b, uint64_t answer) {
    uint64_t at;
    if (answer != REELBOOK_DONE) {
        equal(b->used, 0, "words of script after a refusal");
        return answer;
    }
    equal(b->used <= REELBOOK_SCRIPT_WORDS, 1, "a count of words inside the script");
    b->used = b->used <= REELBOOK_SCRIPT_WORDS ? b->used : 2;
    for (at = 0; at < b->used; at += 2) {
        if (b->script[at] != REELBOOK_BARRIER) {
            b->image[b->script[at]] = b->script[at + 1];
        }
    }
    return answer;
}

/* The slices that a call is lent. */
#define IMAGE b->image, b->image_words
#define MAP b->map, b->map_words
#define SCRATCH b->scratch, b->map_words
#define SCRIPT b->script, REELBOOK_SCRIPT_WORDS

uint64_t book_open(struct book *b, uint64_t reel) {
    return carried_out(b, reelbook_open(IMAGE, MAP, SCRIPT, reel, fresh(&b->used)));
}

static uint64_t ones(uint64_t word) {
    uint64_t count = 0;
    for (; word != 0; word &= word - 1) {
        count++;
    }
    return count;
}

/* The places left are those of the claimed node, by its words as they are now that the script is carried out. */
uint64_t book_claim(struct book *b, uint64_t head, uint64_t reel, uint64_t frame) {
    uint64_t node, answer = reelbook_claim(IMAGE, MAP, b->heads, SCRIPT, head, reel, frame, fresh(&b->used), fresh(&b->left));
    if (carried_out(b, answer) != REELBOOK_DONE) {
        equal(b->left, 0, "places left after a refusal");
        return answer;
    }
    node = head_word(b, head, REELBOOK_HEAD_NODE_AT);
    equal(b->left + ones(node_word(b, node, REELBOOK_NODE_LOCATE)), node_word(b, node, REELBOOK_NODE_SIZE), "places left");
    return answer;
}

uint64_t book_fill(struct book *b, uint64_t head) {
    return carried_out(b, reelbook_fill(IMAGE, b->heads, SCRIPT, head, fresh(&b->used)));
}

uint64_t book_commit(struct book *b, uint64_t head) {
    return carried_out(b, reelbook_commit(IMAGE, b->heads, SCRIPT, head, fresh(&b->used)));
}

uint64_t book_abandon(struct book *b, uint64_t head) {
    return carried_out(b, reelbook_abandon(IMAGE, b->heads, SCRIPT, head, fresh(&b->used)));
}

uint64_t book_remove(struct book *b, uint64_t reel, uint64_t frame) {
    return carried_out(b, reelbook_remove(IMAGE, b->heads, SCRIPT, reel, frame, fresh(&b->used)));
}

/* From the root in the reel's first filled slot down to a node without children; 0 if no such path is in the pool. */
static uint64_t nodes_on_path(const struct book *b, uint64_t reel, uint64_t frame) {
    uint64_t slot, next = 0, level;
    for (slot = 0; slot < b->image[REELBOOK_SLOTS_AT] && next == 0; slot++) {
        next = slot_word(b, slot, REELBOOK_SLOT_REEL) == reel ? slot_word(b, slot, REELBOOK_SLOT_ROOT) : 0;
    }
    for (level = 0; level <= LAST_LEVEL && next - 1 < b->image[REELBOOK_NODES_AT]; level++) {
        uint64_t first = node_word(b, next - 1, REELBOOK_NODE_NEXT);
        if (first == 0) {
            return level + 1;
        }
        next = first + child_of(level, frame);
    }
    return 0;
}

/* The number is that of the frame's path, by the image's words, whether the frame is held or not. */
uint64_t book_has(struct book *b, uint64_t reel, uint64_t frame) {
    uint64_t answer = reelbook_has(IMAGE, reel, frame, fresh(&b->yes), fresh(&b->nodes));
    if (answer != REELBOOK_DONE) {
        equal(b->yes, 0, "yes after a refusal");
        equal(b->nodes, 0, "nodes on a path after a refusal");
        return answer;
    }
    equal(b->yes <= 1, 1, "a yes of 0 or 1");
    equal(b->nodes, nodes_on_path(b, reel, frame), "nodes on a path");
    return answer;
}

uint64_t book_retire(struct book *b, uint64_t reel) {
    return carried_out(b, reelbook_retire(IMAGE, MAP, b->heads, SCRATCH, SCRIPT, reel, fresh(&b->used)));
}

uint64_t book_tidy(struct book *b, uint64_t reel) {
    return carried_out(b, reelbook_tidy(IMAGE, MAP, b->heads, SCRATCH, SCRIPT, reel, fresh(&b->used)));
}

uint64_t book_list(struct book *b, size_t room, uint64_t reel) {
    return reelbook_list(IMAGE, SCRATCH, b->list, room, reel, fresh(&b->count));
}

uint64_t book_recover(struct book *b) {
    return reelbook_recover(IMAGE, MAP, b->heads);
}

void book_add(struct book *b, uint64_t reel, uint64_t first, uint64_t step, unsigned count) {
    unsigned done;
    for (done = 0; done < count; done++) {
        equal(book_claim(b, 1, reel, first + step * done), REELBOOK_DONE, "claim");
        equal(book_fill(b, 1), REELBOOK_DONE, "fill");
        equal(book_commit(b, 1), REELBOOK_DONE, "commit");
    }
}

void book_make_deep(struct book *b, unsigned rule) {
    uint64_t node = 0, next = 1, level, child;
    book_format_as(b, rule, 1, DEEP_NODES);
    equal(book_open(b, 7), REELBOOK_DONE, "open");
    for (level = 0; level <= LAST_LEVEL; level++) {
        uint64_t children = fanout(level);
        for (child = 0; child < children; child++) {
            memset(&b->image[node_index(b, next + child, 0)], 0, REELBOOK_NODE_WORDS * sizeof *b->image);
            b->image[node_index(b, next + child, REELBOOK_NODE_LEVEL)] = level + 1;
            b->image[node_index(b, next + child, REELBOOK_NODE_SIZE)] = 64;
        }
        b->image[node_index(b, node, REELBOOK_NODE_NEXT)] = children ? next + 1 : 0;
        b->image[node_index(b, node, REELBOOK_NODE_SIZE)] = 64;
        b->image[node_index(b, node, REELBOOK_NODE_LOCATE)] = b->image[node_index(b, node, REELBOOK_NODE_SET)] = 1;
        b->image[node_index(b, node, REELBOOK_NODE_FINGERPRINTS)] = fingerprint(rule, level << 59);
        b->image[node_index(b, node, REELBOOK_NODE_FRAMES)] = level << 59;
        node = next;
        next += children;
    }
    equal(book_recover(b), REELBOOK_DONE, "recover of the deep tree");
}

uint64_t slot_word(const struct book *b, uint64_t slot, uint64_t word) {
    return b->image[REELBOOK_HEADER_WORDS + REELBOOK_SLOT_WORDS * slot + word];
}

size_t node_index(const struct book *b, uint64_t node, uint64_t word) {
    uint64_t nodes_at = REELBOOK_HEADER_WORDS + REELBOOK_SLOT_WORDS * b->image[REELBOOK_SLOTS_AT];
    return (size_t)(nodes_at + REELBOOK_NODE_WORDS * node + word);
}

uint64_t node_word(const struct book *b, uint64_t node, uint64_t word) {
    return b->image[node_index(b, node, word)];
}

uint64_t head_word(const struct book *b, uint64_t head, uint64_t word) {
    return b->heads[REELBOOK_HEAD_WORDS * head + word];
}
