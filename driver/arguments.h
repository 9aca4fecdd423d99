/* The command line. */
#ifndef ARGUMENTS_H
#define ARGUMENTS_H

#include <inttypes.h>

enum option {
    OPTION_REELS,
    OPTION_NODES,
    OPTION_PATH_NODES, /* --nodes too, of another command: no command has both */
    OPTION_TABLE,
    OPTION_FORCE,
    OPTION_SKIP_HELD,
    OPTION_PROGRESS,
    OPTION_RATE,
    OPTION_BY_REEL,
    OPTION_JSON,
    OPTION_CSV,
    OPTION_OUTPUT,
    OPTION_CRASH_AFTER,
    OPTION_SEED,
    OPTION_ENTRIES,
    OPTION_MODULE,
    OPTION_WAIT,
    OPTION_HELP,
    OPTIONS
};

struct arguments {
    char **operands; /* the book's file, and what follows it */
    int count;
    const char *values[OPTIONS]; /* NULL if it was not given */
    uint64_t numbers[OPTIONS];   /* of those whose value is a number; 0 if none was given */
    struct crash *crash;         /* the power failure that was asked for, or NULL */
    int module;                  /* the book is on a module with line flushes */
    double until;                /* how long to wait for a lock, by clock_seconds() */
};

struct command {
    const char *name, *operands, *about;
    const char *more;           /* further paragraphs of its own help, or NULL */
    int least, most;            /* operands */
    unsigned options, required; /* a bit for each that it has, besides those of every command; that it cannot be without */
    const char *steady;         /* why it has no --crash-after, where that is to be said */
    int (*run)(const struct arguments *a);
};

/* 0, or -1 and a line on standard error. */
int arguments_read(struct arguments *a, const struct command *c, int count, char **words);

/* A decimal number of 64 bits without sign or leading zeros. 1 if the text is one. */
int number_in(const char *text, uint64_t *number);

/* What to say where it is not, with the text and UINT64_MAX. */
#define NOT_A_NUMBER "'%s' is not a number from 0 to %" PRIu64 " in decimal without leading zeros"

/* The same; 0, or -1 and a line on standard error. */
int arguments_number(const char *text, uint64_t *number);

void arguments_help(const struct command *c);

#endif
