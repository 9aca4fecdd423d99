#define _XOPEN_SOURCE 700 /* for realpath */
#include "output.h"

#include <errno.h>
#include <fcntl.h>
#include <stdlib.h>
#include <string.h>
#include <sys/stat.h>
#include <unistd.h>

#include "answers.h"
#include "file.h"
#include "unfinished.h"

static int open_temporary(struct output *o, const struct stat *old) {
    int fd = open(o->temporary, O_WRONLY | O_CREAT | O_EXCL | O_CLOEXEC, 0666);
    if (fd < 0)
        return -1;
    unfinished_file(o->temporary);
    if (old)
        file_be_like(o->temporary, old);
    o->stream = fdopen(fd, "w");
    return o->stream ? 0 : -1;
}

/* Links are followed; a file that may not be written is not replaced. */
static int begin_beside(struct output *o, const char *to, const struct stat *old) {
    if (old && access(to, W_OK) != 0)
        return -1;
    o->target = old ? realpath(to, NULL) : strdup(to);
    o->temporary = o->target ? unfinished_name(o->target) : NULL;
    return o->temporary ? open_temporary(o, old) : -1;
}

int output_begin(struct output *o, const char *to) {
    struct stat status;
    *o = (struct output){.stream = stdout};
    if (!to || strcmp(to, "-") == 0)
        return 0;
    if (file_is_book(to)) {
        say("%s: a reel book, not overwritten", to);
        return -1;
    }
    int there = stat(to, &status) == 0, failed;
    if (there && !S_ISREG(status.st_mode)) {
        o->stream = fopen(to, "w");
        failed = !o->stream;
    } else {
        failed = begin_beside(o, to, there ? &status : NULL);
    }
    if (failed) {
        say("%s: %s", to, strerror(errno));
        unfinished_remove();
    }
    return failed ? -1 : 0;
}

/* 0, or errno. */
static int settle(struct output *o) {
    int error = 0;
    if (ferror(o->stream) || fflush(o->stream) != 0)
        error = errno;
    else if (o->temporary && fsync(fileno(o->stream)) != 0 && errno != EINVAL) /* EINVAL: this file system has no need of it */
        error = errno;
    if (fclose(o->stream) != 0 && error == 0)
        error = errno;
    if (o->temporary && error == 0 && (rename(o->temporary, o->target) != 0 || file_settle_name(o->target) != 0))
        error = errno;
    return error;
}

static void let_go(struct output *o) {
    unfinished_file(NULL);
    free(o->target);
    free(o->temporary);
}

int output_end(struct output *o, const char *to) {
    if (o->stream == stdout)
        return 0;
    int error = settle(o);
    if (error != 0) {
        unfinished_remove();
        say("%s: %s", to, strerror(error));
    }
    let_go(o);
    return error == 0 ? 0 : -1;
}

void output_drop(struct output *o) {
    if (o->stream == stdout)
        return;
    fclose(o->stream);
    unfinished_remove();
    let_go(o);
}
