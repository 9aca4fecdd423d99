#define _DEFAULT_SOURCE 1 /* for flock, nanosleep */
#include "file.h"

#include <errno.h>
#include <fcntl.h>
#include <libgen.h>
#include <stdio.h>
#include <stdlib.h>
#include <string.h>
#include <sys/file.h>
#include <time.h>
#include <unistd.h>

#include "clock.h"

/* A file that another takes the name of is opened anew, so often at most. */
enum { MOST_TRIES = 16 };

/* So that an image starts on a line's boundary, as a module with line flushes asks for. */
typedef char page_of_whole_lines[FILE_PAGE_WORDS % REELBOOK_LINE_WORDS == 0 ? 1 : -1];

static size_t next_page(size_t words) {
    return (words + FILE_PAGE_WORDS - 1) / FILE_PAGE_WORDS * FILE_PAGE_WORDS;
}

static off_t in_bytes(size_t words) {
    return (off_t)(words * sizeof(uint64_t));
}

void file_lay_out(struct file *f, uint64_t slots, uint64_t nodes) {
    f->slots = slots;
    f->nodes = nodes;
    f->image_at = FILE_PAGE_WORDS;
    f->image_words = reelbook_image_words(slots, nodes);
    f->map_at = next_page(f->image_at + f->image_words);
    f->map_words = reelbook_map_words(nodes);
    f->words = next_page(f->map_at + f->map_words);
}

/* O_NONBLOCK is for a FIFO, which is refused and not waited for. */
static int open_any(const char *path, int flags) {
    return open(path, flags | O_CLOEXEC | O_NONBLOCK, 0666);
}

/* Tries again until the time is up. */
static uint64_t lock(int fd, int kind, double until) {
    const struct timespec pause = {.tv_nsec = 10000000};
    while (flock(fd, kind | LOCK_NB) != 0) {
        if (errno != EWOULDBLOCK && errno != EINTR)
            return BOOK_SYSTEM;
        if (clock_seconds() >= until)
            return BOOK_LOCKED;
        nanosleep(&pause, NULL);
    }
    return REELBOOK_DONE;
}

/* Locks a regular file and tells its length, which stays so while it is locked. */
static uint64_t lock_regular(int fd, int kind, double until, off_t *bytes) {
    struct stat status;
    if (fstat(fd, &status) != 0)
        return BOOK_SYSTEM;
    if (S_ISDIR(status.st_mode)) {
        errno = EISDIR;
        return BOOK_SYSTEM;
    }
    if (!S_ISREG(status.st_mode))
        return BOOK_NOT_REGULAR;
    uint64_t answer = lock(fd, kind, until);
    if (answer == REELBOOK_DONE && fstat(fd, &status) != 0)
        answer = BOOK_SYSTEM;
    *bytes = status.st_size;
    return answer;
}

/* Another file may take the name while a lock is waited for; what is then written to this one would be lost. */
static int still_named(int fd, const char *path) {
    struct stat this, named;
    return fstat(fd, &this) == 0 && stat(path, &named) == 0 && this.st_dev == named.st_dev && this.st_ino == named.st_ino;
}

/* 1 if the file starts with a header, whatever it says; 0 if it is too short. */
static int read_header(int fd, uint64_t header[FILE_HEADER_WORDS]) {
    size_t bytes = FILE_HEADER_WORDS * sizeof(uint64_t);
    return pread(fd, header, bytes, 0) == (ssize_t)bytes;
}

static uint64_t check_header(struct file *f, off_t bytes) {
    uint64_t header[FILE_HEADER_WORDS];
    if (!read_header(f->fd, header) || header[FILE_MAGIC_AT] != FILE_MAGIC)
        return BOOK_NOT_A_BOOK;
    if (header[FILE_VERSION_AT] != FILE_VERSION && header[FILE_VERSION_AT] != FILE_VERSION_OWN_TABLE)
        return BOOK_OTHER_VERSION;
    uint64_t slots = header[FILE_SLOTS_AT], nodes = header[FILE_NODES_AT];
    if (slots < 1 || slots > REELBOOK_MAX_SLOTS || nodes < 1 || nodes > REELBOOK_MAX_NODES)
        return REELBOOK_BAD_IMAGE;
    file_lay_out(f, slots, nodes);
    f->clean = header[FILE_CLEAN_AT] == 1;
    return bytes == in_bytes(f->words) ? REELBOOK_DONE : BOOK_WRONG_LENGTH;
}

static uint64_t open_once(struct file *f, const char *path, int writable, double until) {
    off_t bytes;
    f->fd = open_any(path, writable ? O_RDWR : O_RDONLY);
    if (f->fd < 0)
        return BOOK_SYSTEM;
    uint64_t answer = lock_regular(f->fd, writable ? LOCK_EX : LOCK_SH, until, &bytes);
    if (answer == REELBOOK_DONE)
        answer = still_named(f->fd, path) ? check_header(f, bytes) : BOOK_REPLACED;
    if (answer != REELBOOK_DONE)
        file_close(f);
    return answer;
}

uint64_t file_open(struct file *f, const char *path, int writable, double until) {
    uint64_t answer = BOOK_REPLACED;
    for (int tries = 0; answer == BOOK_REPLACED && tries < MOST_TRIES; tries++)
        answer = open_once(f, path, writable, until);
    return answer;
}

/* What a failed allocation may have added is given back. */
static uint64_t allocate(const struct file *f, off_t old_bytes) {
    int error = posix_fallocate(f->fd, 0, in_bytes(f->words));
    if (error == 0)
        return REELBOOK_DONE;
    if (ftruncate(f->fd, old_bytes) == 0)
        errno = error;
    return BOOK_SYSTEM;
}

/* Between making a file and locking it another process may make it a book: then it is one that was there. */
static uint64_t lock_new(const struct file *f, const char *path, int force, double until, int *created, off_t *old_bytes) {
    uint64_t answer = lock_regular(f->fd, LOCK_EX, until, old_bytes);
    if (answer == REELBOOK_DONE && !still_named(f->fd, path))
        return BOOK_REPLACED;
    if (answer != REELBOOK_DONE || !*created || *old_bytes == 0)
        return answer;
    *created = 0;
    return force ? REELBOOK_DONE : BOOK_EXISTS;
}

static uint64_t reserve_once(struct file *f, const char *path, int force, double until, int *created, off_t *old_bytes) {
    f->fd = open_any(path, O_RDWR | O_CREAT | O_EXCL);
    *created = f->fd >= 0;
    if (f->fd < 0 && errno == EEXIST) {
        if (!force)
            return BOOK_EXISTS;
        f->fd = open_any(path, O_RDWR);
    }
    if (f->fd < 0)
        return BOOK_SYSTEM;
    uint64_t answer = lock_new(f, path, force, until, created, old_bytes);
    if (answer != REELBOOK_DONE)
        file_close(f);
    return answer;
}

/* A new file, or one that is there if `force`, opened and locked, its contents as they were. */
static uint64_t reserve(struct file *f, const char *path, int force, double until, int *created, off_t *old_bytes) {
    uint64_t answer = BOOK_REPLACED;
    for (int tries = 0; answer == BOOK_REPLACED && tries < MOST_TRIES; tries++)
        answer = reserve_once(f, path, force, until, created, old_bytes);
    return answer;
}

/* What was made is taken away only while it is locked. */
static uint64_t end_reserved(struct file *f, const char *path, int created, uint64_t answer) {
    int error = errno;
    if (answer != REELBOOK_DONE && created)
        unlink(path);
    errno = error;
    file_close(f);
    return answer;
}

uint64_t file_create(struct file *f, const char *path, int force, double until, int *created) {
    off_t old_bytes;
    uint64_t answer = reserve(f, path, force, until, created, &old_bytes);
    if (answer != REELBOOK_DONE)
        return answer;
    answer = allocate(f, old_bytes);
    return answer == REELBOOK_DONE ? answer : end_reserved(f, path, *created, answer);
}

void file_be_like(const char *path, const struct stat *old) {
    if (chown(path, old->st_uid, old->st_gid) != 0 && old->st_uid != geteuid())
        return;
    if (chmod(path, old->st_mode & 07777) != 0)
        return;
}

uint64_t file_take_name(const char *from, const char *to, int force, double until) {
    struct file f;
    struct stat old;
    int created;
    off_t old_bytes;
    uint64_t answer = reserve(&f, to, force, until, &created, &old_bytes);
    if (answer != REELBOOK_DONE)
        return answer;
    if (!created && fstat(f.fd, &old) == 0)
        file_be_like(from, &old);
    answer = rename(from, to) == 0 ? REELBOOK_DONE : BOOK_SYSTEM;
    answer = end_reserved(&f, to, created, answer);
    return answer == REELBOOK_DONE && file_settle_name(to) != 0 ? BOOK_SYSTEM : answer;
}

/* A directory that may not be read cannot be opened for this: then the file's own fsync has to do. */
int file_settle_name(const char *path) {
    char *copy = strdup(path);
    if (!copy)
        return -1;
    int directory = open(dirname(copy), O_RDONLY | O_CLOEXEC);
    free(copy);
    if (directory < 0)
        return errno == EACCES ? 0 : -1;
    int failed = fsync(directory) != 0 && errno != EINVAL; /* EINVAL: this file system has no need of it */
    close(directory);
    return failed ? -1 : 0;
}

uint64_t file_settle(const struct file *f, const char *path) {
    if (ftruncate(f->fd, in_bytes(f->words)) != 0 || fsync(f->fd) != 0 || file_settle_name(path) != 0)
        return BOOK_SYSTEM;
    return REELBOOK_DONE;
}

void file_close(struct file *f) {
    int error = errno;
    close(f->fd);
    errno = error;
}

int file_is_book(const char *path) {
    uint64_t header[FILE_HEADER_WORDS];
    int fd = open_any(path, O_RDONLY);
    if (fd < 0)
        return 0;
    int yes = read_header(fd, header) && header[FILE_MAGIC_AT] == FILE_MAGIC;
    close(fd);
    return yes;
}
