#include "names.h"

#include <stdint.h>
#include <string.h>

static const char MARK[] = "\xef\xbf\xbd", DOTS[] = "\xe2\x80\xa6";

/* The bytes that a first byte announces, or 0 if none starts so. */
static size_t announced(unsigned char first) {
    if (first < 0x80)
        return 1;
    return first < 0xc2 ? 0 : first < 0xe0 ? 2 : first < 0xf0 ? 3 : first < 0xf5 ? 4 : 0;
}

/* No text: control characters; surrogates, forms longer than needed and what is above U+10FFFF; U+FFFE, U+FFFF, not in XML. */
static int is_text(uint32_t code, size_t bytes) {
    static const uint32_t least[] = {0, 0, 0x80, 0x800, 0x10000};
    if (code < ' ' || (code >= 0x7f && code < 0xa0) || code < least[bytes] || code > 0x10ffff)
        return 0;
    return !(code >= 0xd800 && code < 0xe000) && code != 0xfffe && code != 0xffff;
}

/* The bytes of the character at the text's start; 0 if that is none. */
static size_t character(const char *text, uint32_t *code) {
    size_t bytes = announced((unsigned char)*text);
    *code = (unsigned char)*text;
    if (bytes > 1)
        *code &= 0x7fu >> bytes;
    for (size_t i = 1; i < bytes; i++) {
        if (((unsigned char)text[i] & 0xc0) != 0x80)
            return 0;
        *code = *code << 6 | ((unsigned char)text[i] & 0x3f);
    }
    return bytes > 0 && is_text(*code, bytes) ? bytes : 0;
}

/* At most so many pixels, in bold letters of 26. */
static double width_of(uint32_t code) {
    if (code >= 0x80 || strchr("MWm@%", (int)code))
        return 29;
    return (code >= 'A' && code <= 'Z') || strchr("w&+=~", (int)code) ? 23 : 19;
}

void name_as_text(char *text, size_t room, const char *name, double width) {
    size_t length = 0, kept = 0; /* what is kept if dots have to follow */
    double wide = 0, dots = width_of(0x2026);
    while (*name) {
        uint32_t code;
        size_t bytes = character(name, &code), written = bytes ? bytes : sizeof MARK - 1;
        wide += width_of(bytes ? code : 0xfffd);
        if (wide > width || length + written + sizeof DOTS > room) {
            memcpy(text + kept, DOTS, sizeof DOTS);
            return;
        }
        memcpy(text + length, bytes ? name : MARK, written);
        length += written;
        kept = wide + dots <= width ? length : kept;
        name += bytes ? bytes : 1;
    }
    text[length] = '\0';
}

const char *name_of_path(const char *path) {
    const char *slash = strrchr(path, '/');
    return slash ? slash + 1 : path;
}
