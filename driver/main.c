/* reelbook: the tool. */
#define _POSIX_C_SOURCE 200809L
#include <errno.h>
#include <fcntl.h>
#include <signal.h>
#include <stdio.h>
#include <string.h>
#include <time.h>
#include <unistd.h>

#include "clock.h"
#include "commands.h"
#include "unfinished.h"

/* A mapped file can fail under any load or store. The book is then as after a power failure: the next command recovers it. */
static void on_bus_error(int signal_number) {
    static const char line[] = "reelbook: the file cannot be read or written: damaged, cut short meanwhile, or on a full disk\n";
    ssize_t written = write(STDERR_FILENO, line, sizeof line - 1);
    (void)signal_number, (void)written;
    unfinished_remove();
    _exit(STATUS_SYSTEM);
}

/* A book must not get the number of a closed standard stream, lest output goes to it. What takes the number fails when it is
 * used. A limit of the file size is reported. */
static void prepare_process(void) {
    for (int fd = STDIN_FILENO; fd <= STDERR_FILENO; fd++)
        if (fcntl(fd, F_GETFD) < 0)
            open("/dev/null", fd == STDIN_FILENO ? O_WRONLY : O_RDONLY);
    signal(SIGBUS, on_bus_error);
    signal(SIGXFSZ, SIG_IGN);
}

static uint64_t some_seed(void) {
    struct timespec now;
    clock_gettime(CLOCK_REALTIME, &now);
    return (uint64_t)now.tv_sec * UINT64_C(1000000000) + (uint64_t)now.tv_nsec;
}

static void prepare(struct arguments *a, struct crash *crash) {
    uint64_t seed = a->values[OPTION_SEED] ? a->numbers[OPTION_SEED] : some_seed();
    *crash = (struct crash){.after = a->numbers[OPTION_CRASH_AFTER], .seed = seed, .state = seed};
    if (a->values[OPTION_CRASH_AFTER])
        a->crash = crash;
    a->module = a->values[OPTION_MODULE] != NULL;
    a->until = clock_seconds() + (double)a->numbers[OPTION_WAIT];
}

static int run(const struct command *c, int count, char **words) {
    struct arguments a;
    struct crash crash;
    say_command = c->name;
    if (arguments_read(&a, c, count, words) != 0)
        return STATUS_USAGE;
    if (a.values[OPTION_HELP]) {
        arguments_help(c);
        return STATUS_DONE;
    }
    if (a.values[OPTION_SEED] && !a.values[OPTION_CRASH_AFTER]) {
        say("--seed: only with --crash-after");
        return STATUS_USAGE;
    }
    if (a.values[OPTION_JSON] && a.values[OPTION_CSV]) {
        say("--json: not with --csv");
        return STATUS_USAGE;
    }
    prepare(&a, &crash);
    return c->run(&a);
}

static int unknown(const char *name) {
    say("%s: no such command; reelbook --help tells them", name);
    return STATUS_USAGE;
}

/* reelbook help [COMMAND] */
static int help(int count, char **words) {
    const struct command *c = count > 0 ? command_named(words[0]) : NULL;
    if (count > 0 && !c)
        return unknown(words[0]);
    if (c)
        arguments_help(c);
    else
        commands_help();
    return STATUS_DONE;
}

static int run_words(int count, char **words) {
    if (count == 0) {
        say("a command is missing; reelbook --help tells them");
        return STATUS_USAGE;
    }
    if (strcmp(words[0], "help") == 0 || strcmp(words[0], "--help") == 0 || strcmp(words[0], "-h") == 0)
        return help(count - 1, words + 1);
    if (strcmp(words[0], "--version") == 0) {
        puts("reelbook " REELBOOK_VERSION);
        return STATUS_DONE;
    }
    const struct command *c = command_named(words[0]);
    return c ? run(c, count - 1, words + 1) : unknown(words[0]);
}

static int flush_output(int status) {
    if (fflush(stdout) == 0 && !ferror(stdout))
        return status;
    say("standard output: %s", strerror(errno));
    return STATUS_SYSTEM;
}

int main(int count, char **words) {
    prepare_process();
    return flush_output(count > 0 ? run_words(count - 1, words + 1) : run_words(0, words));
}
