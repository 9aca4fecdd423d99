/* Names of files as text. */
#ifndef NAMES_H
#define NAMES_H

#include <stddef.h>

/* A name in UTF-8, with a mark (U+FFFD) for what is no text: bytes that are not UTF-8, control characters. It is cut, with dots
 * at its end, where it would be wider than so many pixels in the title's letters, or longer than the room. */
void name_as_text(char *text, size_t room, const char *name, double width);

/* The part after the last slash. */
const char *name_of_path(const char *path);

#endif
