#define _POSIX_C_SOURCE 200809L
#include "unfinished.h"

#include <signal.h>
#include <stdio.h>
#include <stdlib.h>
#include <string.h>
#include <unistd.h>

static const char *volatile unfinished;

void unfinished_remove(void) {
    if (unfinished)
        unlink(unfinished);
}

static void on_interrupt(int number) {
    unfinished_remove();
    signal(number, SIG_DFL);
    raise(number);
}

/* A signal that was ignored from the start, as under nohup, stays so. */
static void catch_interrupt(int number) {
    struct sigaction action;
    if (sigaction(number, NULL, &action) != 0 || action.sa_handler != SIG_DFL)
        return;
    memset(&action, 0, sizeof action);
    action.sa_handler = on_interrupt;
    sigaction(number, &action, NULL);
}

void unfinished_file(const char *path) {
    unfinished = path;
    if (!path)
        return;
    catch_interrupt(SIGINT);
    catch_interrupt(SIGTERM);
    catch_interrupt(SIGHUP);
}

/* What a process of the same number has left is passed over. */
char *unfinished_name(const char *path) {
    const char *slash = strrchr(path, '/');
    size_t folder = slash ? (size_t)(slash - path) + 1 : 0, room = folder + 64;
    char *name = malloc(room);
    if (!name)
        return NULL;
    memcpy(name, path, folder);
    for (int number = 0; number == 0 || (number < 1000 && access(name, F_OK) == 0); number++)
        snprintf(name + folder, room - folder, ".reelbook-%ld-%d", (long)getpid(), number);
    return name;
}
