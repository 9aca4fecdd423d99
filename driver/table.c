/* The commands, and what the tool says of itself. */
#include <stdio.h>
#include <string.h>

#include "commands.h"

#define BIT(option) (1u << (option))
#define CRASHES (BIT(OPTION_CRASH_AFTER) | BIT(OPTION_SEED) | BIT(OPTION_MODULE))
#define SCRIPTS (CRASHES | BIT(OPTION_ENTRIES))

#define FORMS (BIT(OPTION_JSON) | BIT(OPTION_CSV))

enum { ANY = 1 << 30 };

#define STREAM \
    "A stream of frames is not atomic: each frame is done, and lasting, by itself. Where one is refused or is no number, and\n" \
    "at an interrupt, the frames before it stay done and are counted; after a power failure they are there too."

#define OWN_TABLE \
    "Fingerprints go by the library's table, or, with --table, by the one in the file TABLE: 256 bytes, in which each value\n" \
    "occurs once. The book keeps that as its own, and every command goes by it. Versions before 4.0 refuse such a book."

static const struct command commands[] = {
    {.name = "format",
     .operands = "FILE --reels R --nodes N [--table TABLE] [--force]",
     .about = "Makes a book of edition 2 with room for R reels and a pool of N nodes.",
     .more = OWN_TABLE,
     .least = 1,
     .most = 1,
     .options = BIT(OPTION_REELS) | BIT(OPTION_NODES) | BIT(OPTION_TABLE) | BIT(OPTION_FORCE) | BIT(OPTION_MODULE),
     .required = BIT(OPTION_REELS) | BIT(OPTION_NODES),
     .steady = "formatting is done on steady power",
     .run = run_format},
    {.name = "open",
     .operands = "FILE REEL",
     .about = "Opens a reel, without frames.",
     .least = 2,
     .most = 2,
     .options = SCRIPTS,
     .run = run_open},
    {.name = "add",
     .operands = "FILE REEL [FRAME..]",
     .about = "Adds frames to a reel: those given, or, with none or -, those on standard input, separated by white space.",
     .least = 2,
     .most = ANY,
     .options = BIT(OPTION_SKIP_HELD) | BIT(OPTION_PROGRESS) | BIT(OPTION_RATE) | SCRIPTS,
     .more = STREAM "\n\n"
                    "The first frame that fills its node is told on standard error, once in a run: no clear place is left in\n"
                    "that node, and the next frame there takes a larger node or one below it, new if need be. It is no error.",
     .run = run_add},
    {.name = "remove",
     .operands = "FILE REEL FRAME..",
     .about = "Removes frames from a reel: those given, or, with -, those on standard input.",
     .least = 3,
     .most = ANY,
     .options = BIT(OPTION_PROGRESS) | BIT(OPTION_RATE) | SCRIPTS,
     .more = STREAM,
     .run = run_remove},
    {.name = "has",
     .operands = "FILE REEL FRAME [--nodes]",
     .about = "Says whether a reel holds a frame: yes, with exit status 0, or no, with 1.",
     .more =
         "With --nodes the line is 'yes 2' or 'no 2': the number, from 1 to 32, is how many nodes are on the frame's path. A\n"
         "lookup reads all of them, whether it finds the frame or not, so that a display can plan its refresh by it.\n\n"
         "The number is 1 for a reel opened in this run that since then never had more than 64 frames held, claimed and filled\n"
         "taken together, a claim that a power failure cut short counted in. The run goes on from format or load through all\n"
         "commands and power failures; reels that a conversion found in the old book were not opened in it. Once a reel has\n"
         "had more, its paths stay as long as they are, whatever is removed, until it is tidied or retired. stat tells the\n"
         "longest one of a book.",
     .least = 3,
     .most = 3,
     .options = BIT(OPTION_PATH_NODES),
     .run = run_has},
    {.name = "list",
     .operands = "FILE REEL [--json | --csv]",
     .about = "Lists a reel's frames, one on a line, in the sequence of its tree.",
     .least = 2,
     .most = 2,
     .options = FORMS,
     .run = run_list},
    {.name = "retire",
     .operands = "FILE REEL",
     .about = "Takes a reel out with all its frames.",
     .least = 2,
     .most = 2,
     .options = SCRIPTS,
     .run = run_retire},
    {.name = "tidy",
     .operands = "FILE REEL",
     .about = "Gives back the nodes of a reel that removals left empty, and says how many.",
     .more = "Nodes go by groups, the two or four children of a node: where all of a group are empty, and have no children or\n"
             "only such groups below. The reel's frames are as they were, in the same sequence; its paths may become shorter.\n"
             "An add that was refused for want of nodes (8) may be done afterwards. Where no group is empty, 0 nodes are freed,\n"
             "which is no error; stat tells the number beforehand.\n\n"
             "Each group is free, and lasting, by itself: after an interrupt or a power failure those before it stay so. Each\n"
             "takes a walk through the reel, so that thousands of them in a large reel take some seconds.",
     .least = 2,
     .most = 2,
     .options = SCRIPTS,
     .run = run_tidy},
    {.name = "reels",
     .operands = "FILE [--json | --csv]",
     .about = "Lists the reels: the number of each, its frames and its nodes.",
     .least = 1,
     .most = 1,
     .options = FORMS,
     .run = run_reels},
    {.name = "stat",
     .operands = "FILE [--by-reel] [--json | --csv]",
     .about = "Counts reels, frames, nodes and places, and tells the book's longest path, edition and table.",
     .more = "The longest path, over all reels, is the most nodes that a lookup reads in this book, whatever the frame; it is 0\n"
             "where no reel is open. has --nodes tells the number for one frame.\n\n"
             "The nodes that tidy frees, those that removals left empty, are told for all reels together, and with --by-reel\n"
             "for each.\n\n"
             "In edition 1 the fingerprints in a book are of the four low bytes of each frame, in edition 2 of all eight. Every\n"
             "command reads both and leaves a book in its edition; format and load make books of edition 2, convert makes one\n"
             "of the other edition. Versions before 3.1 make books of edition 1, and refuse those of edition 2. The table is\n"
             "the library's, or the book's own if it was made with --table.",
     .least = 1,
     .most = 1,
     .options = BIT(OPTION_BY_REEL) | FORMS,
     .run = run_stat},
    {.name = "dump",
     .operands = "FILE [-o OUT]",
     .about = "Writes a whole book as text, on standard output or to OUT, from which load makes it again.",
     .more =
         "The text has the lines 'reel book dump 1', 'reels R' and 'nodes N'; then, for each reel, 'reel REEL' and a line for\n"
         "each of its frames; then 'end'. Lines that are empty or start with # count for nothing. A table of the book's own is\n"
         "not in it: reelbook table writes that.",
     .least = 1,
     .most = 1,
     .options = BIT(OPTION_OUTPUT),
     .run = run_dump},
    {.name = "load",
     .operands = "FILE [FROM] [--reels R] [--nodes N] [--table TABLE] [--force]",
     .about = "Makes a book of edition 2 from the text of dump, in the file FROM or on standard input.",
     .more = "The book gets as much room as the dumped one had, which always suffices, or what --reels and --nodes say. It\n"
             "takes its name when it is whole: after a refusal, an interrupt or a power failure there is no book, or, with\n"
             "--force, still the old one.\n\n" OWN_TABLE,
     .least = 1,
     .most = 2,
     .options = BIT(OPTION_REELS) | BIT(OPTION_NODES) | BIT(OPTION_TABLE) | BIT(OPTION_FORCE) | BIT(OPTION_PROGRESS) |
                BIT(OPTION_RATE) | BIT(OPTION_MODULE),
     .steady = "a book that is loaded has no name before it is whole",
     .run = run_load},
    {.name = "convert",
     .operands = "FILE NEW [--json | --csv]",
     .about = "Makes a book NEW of the other edition, 2 of 1 or 1 of 2, with the same reels and frames.",
     .more = "FILE is only read, however it was closed, and every reel has the same list in both. NEW must not be there yet. It\n"
             "takes its name when it is whole: after a refusal, an interrupt or a power failure there is none. A book with a\n"
             "table of its own is refused, since edition 1 has none: dump and load make one without it, which is converted then.",
     .least = 2,
     .most = 2,
     .options = FORMS | BIT(OPTION_MODULE),
     .steady = "a book that is converted has no name before it is whole",
     .run = run_convert},
    {.name = "table",
     .operands = "FILE [-o OUT]",
     .about = "Writes a book's own table, 256 bytes, on standard output or to OUT, from which format and load take it.",
     .more = "A book that goes by the library's table has none to write: the exit status is then 1.",
     .least = 1,
     .most = 1,
     .options = BIT(OPTION_OUTPUT),
     .run = run_table},
    {.name = "check",
     .operands = "FILE",
     .about = "Says whether a book is sound and was closed cleanly. Never writes to it.",
     .least = 1,
     .most = 1,
     .run = run_check},
    {.name = "recover",
     .operands = "FILE",
     .about = "Recovers a book, however it was closed, and says what it found.",
     .least = 1,
     .most = 1,
     .options = CRASHES,
     .run = run_recover},
    {.name = "draw",
     .operands = "FILE [-o OUT]",
     .about = "Draws the pool and the trees as an SVG picture, on standard output or to OUT.",
     .least = 1,
     .most = 1,
     .options = BIT(OPTION_OUTPUT),
     .run = run_draw},
};

enum { COMMANDS = sizeof commands / sizeof commands[0] };

const struct command *command_named(const char *name) {
    for (int i = 0; i < COMMANDS; i++)
        if (strcmp(name, commands[i].name) == 0)
            return &commands[i];
    return NULL;
}

void commands_help(void) {
    puts("reelbook COMMAND FILE .. keeps sets of frames, reel by reel, in a book that outlasts power failures.\n");
    for (int i = 0; i < COMMANDS; i++)
        printf("  reelbook %s %s\n      %s\n", commands[i].name, commands[i].operands, commands[i].about);
    puts("  reelbook help [COMMAND]\n      This text, or a command's options, as reelbook COMMAND --help.\n"
         "  reelbook --version\n      The tool's version.\n\n"
         "A number is decimal, from 0 to 2^64 - 1, without leading zeros. --seed=5 is the same as --seed 5; after -- nothing is\n"
         "an option. With --wait[=SECONDS] a command waits for a book that is in use by another process.\n\n"
         "With --module a command that writes is for a file on a memory module on which a barrier makes only those lines of 64\n"
         "bytes lasting that were flushed before it: scripts are translated for that, and what is written without a script is\n"
         "flushed line by line. The book becomes the same.\n\n"
         "The exit status, after a line on standard error from 2 on:\n"
         "  0  done; yes\n"
         "  1  no, the answer of has, and of table where a book has none of its own\n"
         "  2  refused by the book, with the refusal's number, or a book that is not sound\n"
         "  3  a command, an option, a number or an input that is none\n"
         "  4  a file or the system: not there, not a book, in use, full; or interrupted");
}
