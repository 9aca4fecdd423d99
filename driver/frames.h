/* Frames to add or remove, from the command line or from standard input. */
#ifndef FRAMES_H
#define FRAMES_H

#include <stdint.h>

struct frames {
    char **words;    /* or NULL for standard input */
    int count;       /* of words left */
    uint64_t frame;  /* the last one */
    char error[160]; /* why there is no next one, or empty */
    int status;      /* the exit status that goes with it */
};

/* Frames that are given as words, or, if there is none or just -, on standard input, separated by white space. 0, or -1 after a
 * line on standard error if a word is not a number. */
int frames_begin(struct frames *f, char **words, int count);

/* 1 and the next frame, or 0 at the end, after an error and after an interrupt. */
int frames_next(struct frames *f);

/* The first interrupt (SIGINT or SIGTERM) from now on ends frames_next(), the second one the process. */
void frames_catch_interrupt(void);
int frames_interrupted(void);

/* A line on standard error, a few times a second, and one at the end with the rate. */
struct progress {
    int wanted, rewritten, shown; /* rewritten: on a terminal, where each takes the place of the last */
    int rate;
    double start, last; /* seconds */
};

void progress_begin(struct progress *p, int wanted, int rate);
void progress_show(struct progress *p, uint64_t frames);

/* Before another line on standard error: it does not go on the one that is rewritten. */
void progress_interrupt(struct progress *p);

void progress_end(struct progress *p, uint64_t frames);

#endif
