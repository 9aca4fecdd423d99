/* The tool's commands. Each answers the exit status, and has said what went wrong where that is 2 or more. */
#ifndef COMMANDS_H
#define COMMANDS_H

#include "arguments.h"
#include "survey.h"

/* A dump: this line, "reels R", "nodes N"; then for every reel "reel REEL" and its frames, a line for each; and the end, so that
 * one that is not whole is known. It does not start as a book's file does. */
#define DUMP_START "reel book dump 1\n"
#define DUMP_END "end"

/* NULL if there is none of that name. */
const struct command *command_named(const char *name);

/* The text of reelbook --help. */
void commands_help(void);

int run_format(const struct arguments *a);
int run_open(const struct arguments *a);
int run_add(const struct arguments *a);
int run_remove(const struct arguments *a);
int run_retire(const struct arguments *a);
int run_tidy(const struct arguments *a);
int run_recover(const struct arguments *a);
int run_load(const struct arguments *a);
int run_convert(const struct arguments *a);

int run_has(const struct arguments *a);
int run_list(const struct arguments *a);
int run_stat(const struct arguments *a);
int run_reels(const struct arguments *a);
int run_dump(const struct arguments *a);
int run_table(const struct arguments *a);
int run_check(const struct arguments *a);
int run_draw(const struct arguments *a);

/* Opens the book that the first operand names. 0, or the exit status after a line on standard error. */
int begin(struct book *b, const struct arguments *a, enum book_mode mode);

/* Closes it. The status given, or that of a failure to close. */
int finish(struct book *b, const struct arguments *a, int status);

/* Opens it to be read, refuses it unless it is sound, and counts it. The same. */
int begin_survey(struct book *b, struct survey *s, const struct arguments *a);

/* 1 after a line on standard error, if no book can have so much room. */
int room_out_of_range(uint64_t reels, uint64_t nodes);

/* Say what an answer is about and what it means. Its exit status. */
int refuse(uint64_t answer, const char *about);
int refuse_reel(uint64_t answer, uint64_t reel);

#endif
