/* A file that is not whole yet: it goes if the process is interrupted. */
#ifndef UNFINISHED_H
#define UNFINISHED_H

/* From now on there is such a file; NULL: no more. */
void unfinished_file(const char *path);

/* Takes it away, if there is one. May be called in a signal's handler. */
void unfinished_remove(void);

/* A name beside a path for it, which nobody else uses; the caller frees it. NULL with errno. */
char *unfinished_name(const char *path);

#endif
