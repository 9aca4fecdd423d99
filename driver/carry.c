#include "carry.h"

#include "reelbook.h"

static int carry_out_entry(struct medium *m, size_t image_at, uint64_t index, uint64_t value) {
    switch (index) {
    case REELBOOK_BARRIER:
        return medium_barrier(m);
    case REELBOOK_FLUSH:
        return medium_flush(m, image_at + REELBOOK_LINE_WORDS * (size_t)value);
    default:
        medium_store(m, image_at + (size_t)index, value);
        return 0;
    }
}

int carry_out(struct medium *m, size_t image_at, const uint64_t *script, size_t words) {
    for (size_t at = 0; at < words; at += 2)
        if (carry_out_entry(m, image_at, script[at], script[at + 1]) != 0)
            return -1;
    return 0;
}

void count_entries(struct entries *e, const uint64_t *script, size_t words) {
    for (size_t at = 0; at < words; at += 2) {
        e->barriers += script[at] == REELBOOK_BARRIER;
        e->flushes += script[at] == REELBOOK_FLUSH;
        e->stores += script[at] < REELBOOK_FLUSH;
    }
}
