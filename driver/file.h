/* The book's file: a page of the driver's own, the image, the saved pool map. Each starts on a page. */
#ifndef FILE_H
#define FILE_H

#include <sys/stat.h>

#include "answers.h"

/* Words of the first page; the rest of it is 0. */
enum { FILE_MAGIC_AT, FILE_VERSION_AT, FILE_SLOTS_AT, FILE_NODES_AT, FILE_CLEAN_AT, FILE_HEADER_WORDS };

/* Version 2 is for an image with its own table: the tools before 4.0, which would fill in fingerprints by another, refuse it. */
enum { FILE_VERSION = 1, FILE_VERSION_OWN_TABLE = 2, FILE_PAGE_WORDS = 4096 / sizeof(uint64_t) };

/* "reelbook", on a machine that has the lowest byte first. */
#define FILE_MAGIC UINT64_C(0x6b6f6f626c656572)

struct file {
    int fd;
    uint64_t slots, nodes;
    size_t image_at, image_words; /* in words from the file's start */
    size_t map_at, map_words;
    size_t words;
    int clean; /* closed cleanly: the saved map is the image's, and no place is claimed */
};

/* Where everything is in a file for so many slots and nodes. */
void file_lay_out(struct file *f, uint64_t slots, uint64_t nodes);

/* Opens a book's file and locks it, for this process alone if it is to be written. The lock is waited for until then, by
 * clock_seconds(), and it is that of the file that has the name when it is got. */
uint64_t file_open(struct file *f, const char *path, int writable, double until);

/* Makes a file of the length that was laid out, all of it allocated, or takes an existing one if `force`; locks it. A file that
 * was there keeps its contents, and if this fails its length. *created says whether it was not there. */
uint64_t file_create(struct file *f, const char *path, int force, double until, int *created);

/* Returns when the file's length and name are lasting. */
uint64_t file_settle(const struct file *f, const char *path);

/* Returns when a name is lasting. 0, or -1 with errno. */
int file_settle_name(const char *path);

void file_close(struct file *f);

/* Gives a whole file another name: a new one, or, if `force`, that of a regular file, which is locked for it. */
uint64_t file_take_name(const char *from, const char *to, int force, double until);

/* A file that is to replace another gets its owner, as far as that may be, and its permissions. */
void file_be_like(const char *path, const struct stat *old);

/* Does this path name a file that starts as a book does? */
int file_is_book(const char *path);

#endif
