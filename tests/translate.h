/* The part of check-header that is about Translate, and about flushes in Apply. */
#ifndef TRANSLATE_H
#define TRANSLATE_H

void check_translations(void);

#endif
