/* Stands between the tool and its file (LD_PRELOAD). The file SHADOW is the disk: it gets what msync passes and nothing else, and
 * is what a power failure leaves. In the FAIL_AT-th msync the process is killed; page n reaches the disk then if bit n of
 * FAIL_PAGES is 1, since a system may write a page back at any time. In the INTERRUPT_AT-th it is interrupted, and goes on. */
#define _GNU_SOURCE /* for RTLD_NEXT and MAP_SYNC */
#include <dlfcn.h>
#include <errno.h>
#include <fcntl.h>
#include <signal.h>
#include <stdlib.h>
#include <sys/mman.h>
#include <unistd.h>

static char *book;
static size_t length;
static int disk;

static unsigned long number(const char *name) {
    const char *text = getenv(name);
    return text ? strtoul(text, NULL, 10) : 0;
}

static void write_back(size_t at, size_t bytes) {
    if (pwrite(disk, book + at, bytes, (off_t)at) != (ssize_t)bytes)
        abort();
}

/* The book is what is mapped shared. No memory is persistent, so that every barrier is an msync. */
void *mmap(void *address, size_t bytes, int protection, int flags, int fd, off_t offset) {
    void *(*next)(void *, size_t, int, int, int, off_t);
    *(void **)&next = dlsym(RTLD_NEXT, "mmap");
    if (flags & MAP_SYNC) {
        errno = EOPNOTSUPP;
        return MAP_FAILED;
    }
    void *mapped = next(address, bytes, protection, flags, fd, offset);
    if ((flags & MAP_TYPE) == MAP_SHARED && mapped != MAP_FAILED) {
        book = mapped;
        length = bytes;
        disk = open(getenv("SHADOW"), O_WRONLY | O_CREAT | O_CLOEXEC, 0666);
    }
    return mapped;
}

int msync(void *address, size_t bytes, int flags) {
    static unsigned long calls;
    size_t page = (size_t)sysconf(_SC_PAGESIZE), at = (size_t)((char *)address - book);
    size_t end = (at + bytes + page - 1) / page * page;
    (void)flags;
    if (++calls == number("FAIL_AT")) {
        for (size_t n = 0; n * page < length; n++)
            if (number("FAIL_PAGES") >> n & 1)
                write_back(n * page, page);
        raise(SIGKILL);
    }
    if (calls == number("INTERRUPT_AT"))
        raise(SIGINT);
    write_back(at, (end < length ? end : length) - at);
    return 0;
}
