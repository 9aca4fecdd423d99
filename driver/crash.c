#include "crash.h"

#include <inttypes.h>
#include <stdlib.h>

#include "answers.h"
#include "carry.h"

/* splitmix64: a number below `limit`. */
static uint64_t random_below(struct crash *c, uint64_t limit) {
    uint64_t z = c->state += UINT64_C(0x9e3779b97f4a7c15);
    z = (z ^ (z >> 30)) * UINT64_C(0xbf58476d1ce4e5b9);
    z = (z ^ (z >> 27)) * UINT64_C(0x94d049bb133111eb);
    return (z ^ (z >> 31)) % limit;
}

/* Is the store at this place of a script lasting after its first words? */
static int lasting(const struct medium *m, const uint64_t *script, size_t at, size_t words) {
    uint64_t line = script[at] / REELBOOK_LINE_WORDS;
    int flushed = !m->module;
    for (at += 2; at < words; at += 2)
        if (script[at] == REELBOOK_FLUSH && script[at + 1] == line)
            flushed = 1;
        else if (script[at] == REELBOOK_BARRIER && flushed)
            return 1;
    return 0;
}

static int keep(struct medium *m, size_t index, uint64_t value) {
    medium_store(m, index, value);
    return medium_flush(m, index);
}

/* Makes the stores that are lasting after a script's first words, and puts the others in a list: so many words, or SIZE_MAX with
 * errno. */
static size_t keep_lasting(struct medium *m, size_t image_at, const uint64_t *script, size_t words, uint64_t *pending) {
    size_t count = 0;
    for (size_t at = 0; at < words; at += 2) {
        if (script[at] == REELBOOK_BARRIER || script[at] == REELBOOK_FLUSH)
            continue;
        if (!lasting(m, script, at, words)) {
            pending[count++] = script[at];
            pending[count++] = script[at + 1];
        } else if (keep(m, image_at + (size_t)script[at], script[at + 1]) != 0) {
            return SIZE_MAX;
        }
    }
    return count;
}

static size_t count_stores(const uint64_t *stores, size_t words, uint64_t index) {
    size_t count = 0;
    for (size_t at = 0; at < words; at += 2)
        count += stores[at] == index;
    return count;
}

/* The first store to a word draws for it among all stores to it, and one chance more for what it had. */
static int keep_some(struct crash *c, struct medium *m, size_t image_at, const uint64_t *stores, size_t words) {
    for (size_t at = 0; at < words; at += 2) {
        uint64_t index = stores[at];
        if (count_stores(stores, at, index) > 0)
            continue;
        uint64_t kept = random_below(c, count_stores(stores, words, index) + 1);
        for (size_t from = at; kept > 0; from += 2)
            if (stores[from] == index && --kept == 0 && keep(m, image_at + (size_t)index, stores[from + 1]) != 0)
                return -1;
    }
    return medium_barrier(m);
}

/* What the power leaves of a script's first words. */
static int leave(struct crash *c, struct medium *m, size_t image_at, const uint64_t *script, size_t words) {
    uint64_t *pending = malloc((words + 1) * sizeof *pending);
    size_t count = pending ? keep_lasting(m, image_at, script, words, pending) : SIZE_MAX;
    int failed = count == SIZE_MAX || keep_some(c, m, image_at, pending, count) != 0;
    free(pending);
    return failed ? -1 : 0;
}

int crash_carry_out(struct crash *c, struct medium *m, size_t image_at, const uint64_t *script, size_t words) {
    uint64_t entries = words / 2, left = c->after - c->passed;
    if (left > entries) {
        c->passed += entries;
        return carry_out(m, image_at, script, words);
    }
    if (leave(c, m, image_at, script, 2 * (size_t)left) != 0)
        return -1;
    say("crashed after %" PRIu64 " %s, seed %" PRIu64, c->after, entries_word(c->after), c->seed);
    exit(EXIT_SUCCESS);
}

/* Takes a recovery's stores back, and writes them as a script's: so many words. */
static size_t take_back(struct medium *m, const struct recovered *r, uint64_t *script) {
    size_t words = 0;
    for (uint64_t node = 0; node < r->nodes; node++) {
        size_t index = r->locate_at + (size_t)(REELBOOK_NODE_WORDS * node);
        uint64_t *locate = &m->words[r->image_at + index];
        if (*locate == r->before[node])
            continue;
        script[words++] = index;
        script[words++] = *locate;
        *locate = r->before[node];
    }
    return words;
}

int crash_recovery(struct crash *c, struct medium *m, const struct recovered *r) {
    size_t lines = m->module ? (r->image_words + REELBOOK_LINE_WORDS - 1) / REELBOOK_LINE_WORDS : 0;
    uint64_t *script = malloc(2 * ((size_t)r->nodes + lines + 1) * sizeof *script);
    if (!script)
        return -1;
    size_t words = take_back(m, r, script);
    for (size_t line = 0; line < lines; line++) {
        script[words++] = REELBOOK_FLUSH;
        script[words++] = line;
    }
    script[words++] = REELBOOK_BARRIER;
    script[words++] = 0;
    int failed = crash_carry_out(c, m, r->image_at, script, words);
    free(script);
    return failed;
}
