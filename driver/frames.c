#define _POSIX_C_SOURCE 200809L
#include "frames.h"

#include <ctype.h>
#include <errno.h>
#include <inttypes.h>
#include <signal.h>
#include <stdio.h>
#include <string.h>
#include <unistd.h>

#include "answers.h"
#include "arguments.h"
#include "clock.h"

static volatile sig_atomic_t interrupted;

static void on_interrupt(int signal_number) {
    (void)signal_number;
    interrupted = 1;
}

/* Without SA_RESTART, so that a read that waits ends; with SA_RESETHAND, so that the second one is not caught. */
void frames_catch_interrupt(void) {
    struct sigaction action;
    memset(&action, 0, sizeof action);
    action.sa_handler = on_interrupt;
    action.sa_flags = (int)SA_RESETHAND;
    sigaction(SIGINT, &action, NULL);
    sigaction(SIGTERM, &action, NULL);
}

int frames_interrupted(void) {
    return interrupted;
}

/* What cannot be printed becomes a question mark, and a word that is too long ends in dots: neither makes a number. */
static int read_word(char *word, size_t room) {
    static const char dots[] = "...";
    size_t length = 0;
    int c = getchar();
    while (isspace(c))
        c = getchar();
    for (; c != EOF && !isspace(c); c = getchar())
        if (++length < room)
            word[length - 1] = (char)(isgraph(c) ? c : '?');
    if (length < room)
        word[length] = '\0';
    else
        memcpy(word + room - sizeof dots, dots, sizeof dots);
    return length > 0;
}

int frames_begin(struct frames *f, char **words, int count) {
    int given = count > 1 || (count == 1 && strcmp(words[0], "-") != 0);
    *f = (struct frames){.words = given ? words : NULL, .count = count};
    for (int i = 0; given && i < count; i++)
        if (arguments_number(words[i], &f->frame) != 0)
            return -1;
    return 0;
}

/* From standard input. A word that an interrupt may have cut short is not used. */
static int read_frame(struct frames *f) {
    char word[48];
    int some = read_word(word, sizeof word);
    if (interrupted)
        return 0;
    if (ferror(stdin)) {
        snprintf(f->error, sizeof f->error, "standard input: %s", strerror(errno));
        f->status = STATUS_SYSTEM;
    } else if (some && !number_in(word, &f->frame)) {
        snprintf(f->error, sizeof f->error, NOT_A_NUMBER, word, UINT64_MAX);
        f->status = STATUS_USAGE;
    }
    return some && !f->error[0];
}

int frames_next(struct frames *f) {
    if (interrupted)
        return 0;
    if (!f->words)
        return read_frame(f);
    return f->count-- > 0 && number_in(*f->words++, &f->frame);
}

void progress_begin(struct progress *p, int wanted, int rate) {
    int terminal = isatty(STDERR_FILENO);
    double now = clock_seconds();
    *p = (struct progress){.wanted = wanted || terminal, .rewritten = terminal, .rate = rate, .start = now, .last = now};
}

void progress_show(struct progress *p, uint64_t frames) {
    const double interval = 0.25;
    if (!p->wanted || clock_seconds() - p->last < interval)
        return;
    p->last = clock_seconds();
    p->shown = 1;
    fprintf(stderr, "%sreelbook: %s: %" PRIu64 " frame%s%s", p->rewritten ? "\r" : "", say_command, frames,
            frames == 1 ? "" : "s", p->rewritten ? "" : "\n");
}

void progress_interrupt(struct progress *p) {
    if (p->shown && p->rewritten)
        fputc('\n', stderr);
    p->shown = 0;
}

void progress_end(struct progress *p, uint64_t frames) {
    double taken = clock_seconds() - p->start;
    progress_interrupt(p);
    if (p->rate)
        say("%" PRIu64 " frame%s in %.3f s, %.0f a second", frames, frames == 1 ? "" : "s", taken,
            taken > 0 ? (double)frames / taken : 0);
}
