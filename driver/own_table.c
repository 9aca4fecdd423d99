#include "own_table.h"

#include <errno.h>
#include <string.h>

enum { WORD_BYTES = 8 };

/* The lowest value that none of the bytes has; one above all values if each occurs. */
static unsigned lacking(const uint8_t table[REELBOOK_TABLE_BYTES]) {
    int occurs[REELBOOK_TABLE_BYTES] = {0};
    unsigned value = 0;
    for (size_t i = 0; i < REELBOOK_TABLE_BYTES; i++)
        occurs[table[i]] = 1;
    while (value < REELBOOK_TABLE_BYTES && occurs[value])
        value++;
    return value;
}

static int not_a_table(const char *name, const uint8_t *bytes, size_t count) {
    if (count > REELBOOK_TABLE_BYTES)
        say("%s: not a table: more than %d bytes", name, REELBOOK_TABLE_BYTES);
    else if (count < REELBOOK_TABLE_BYTES)
        say("%s: not a table: %zu byte%s instead of %d", name, count, count == 1 ? "" : "s", REELBOOK_TABLE_BYTES);
    else
        say("%s: not a table: it lacks the byte %u", name, lacking(bytes));
    return STATUS_USAGE;
}

/* One byte more than a table has tells a longer file. */
int own_table_read(uint8_t table[REELBOOK_TABLE_BYTES], const char *path) {
    uint8_t bytes[REELBOOK_TABLE_BYTES + 1];
    int standard = strcmp(path, "-") == 0;
    const char *name = standard ? "standard input" : path;
    FILE *in = standard ? stdin : fopen(path, "rb");
    size_t count = in ? fread(bytes, 1, sizeof bytes, in) : 0;
    int error = !in || ferror(in) ? errno : 0;
    if (in && !standard)
        fclose(in);
    if (error != 0) {
        say("%s: %s", name, strerror(error));
        return STATUS_SYSTEM;
    }
    if (count != REELBOOK_TABLE_BYTES || lacking(bytes) < REELBOOK_TABLE_BYTES)
        return not_a_table(name, bytes, count);
    memcpy(table, bytes, REELBOOK_TABLE_BYTES);
    return STATUS_DONE;
}

static void unpack(uint8_t table[REELBOOK_TABLE_BYTES], const uint64_t *image) {
    for (size_t i = 0; i < REELBOOK_TABLE_BYTES; i++)
        table[i] = (uint8_t)(image[REELBOOK_TABLE_AT + i / WORD_BYTES] >> 8 * (i % WORD_BYTES));
}

/* In edition 1 the word has no meaning. */
static uint64_t mark_in(const uint64_t *image) {
    return image[REELBOOK_EDITION_AT] == REELBOOK_EDITION_2 ? image[REELBOOK_OWN_AT] : 0;
}

int own_table_in(const uint64_t *image) {
    return mark_in(image) == 1;
}

void own_table_write(FILE *out, const uint64_t *image) {
    uint8_t table[REELBOOK_TABLE_BYTES];
    unpack(table, image);
    fwrite(table, 1, sizeof table, out);
}

uint64_t own_table_answer(const uint64_t *image, uint64_t answer) {
    uint8_t table[REELBOOK_TABLE_BYTES];
    if (answer != REELBOOK_MALFORMED || mark_in(image) == 0)
        return answer;
    if (mark_in(image) > 1)
        return BOOK_TABLE_MARK;
    unpack(table, image);
    return lacking(table) < REELBOOK_TABLE_BYTES ? BOOK_TABLE_LACKS : answer;
}
