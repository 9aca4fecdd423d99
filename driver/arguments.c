#include "arguments.h"

#include <stdio.h>
#include <string.h>

#include "answers.h"

enum value { WITHOUT, WITH, PERHAPS /* only after = */ };

static const struct {
    const char *name, *brief;
    enum value value;
    const char *value_name; /* in the help */
    int is_number;
    const char *about;
} options[OPTIONS] = {
    [OPTION_REELS] = {"--reels", NULL, WITH, "R", 1, "room for R reels"},
    [OPTION_NODES] = {"--nodes", NULL, WITH, "N", 1, "a pool of N nodes"},
    [OPTION_PATH_NODES] = {"--nodes", NULL, WITHOUT, NULL, 0, "tell the number of nodes on the frame's path too"},
    [OPTION_TABLE] = {"--table", NULL, WITH, "TABLE", 0,
                      "fingerprints go by the 256 bytes in the file TABLE, each value once; - is standard input"},
    [OPTION_FORCE] = {"--force", NULL, WITHOUT, NULL, 0, "overwrite a file that is there, a book or not"},
    [OPTION_SKIP_HELD] = {"--skip-held", NULL, WITHOUT, NULL, 0, "pass over frames that the reel holds already"},
    [OPTION_PROGRESS] = {"--progress", NULL, WITHOUT, NULL, 0, "tell the progress though standard error is no terminal"},
    [OPTION_RATE] = {"--rate", NULL, WITHOUT, NULL, 0, "tell at the end, on standard error, how many frames in which time"},
    [OPTION_BY_REEL] = {"--by-reel", NULL, WITHOUT, NULL, 0, "a line for each reel besides"},
    [OPTION_JSON] = {"--json", NULL, WITHOUT, NULL, 0, "as JSON, numbers with all their digits"},
    [OPTION_CSV] = {"--csv", NULL, WITHOUT, NULL, 0, "as CSV, the first line being names"},
    [OPTION_OUTPUT] = {"--output", "-o", WITH, "OUT", 0, "write to OUT; - is standard output"},
    [OPTION_CRASH_AFTER] = {"--crash-after", NULL, WITH, "K", 1,
                            "simulate a power failure after K entries of the command's scripts"},
    [OPTION_SEED] = {"--seed", NULL, WITH, "S", 1, "which of the stores since the last barrier are kept then"},
    [OPTION_ENTRIES] = {"--entries", NULL, WITHOUT, NULL, 0,
                        "tell at the end, on standard error, the stores, line flushes and barriers of the scripts"},
    [OPTION_MODULE] = {"--module", NULL, WITHOUT, NULL, 0,
                       "carry scripts out with line flushes, for a memory module whose barriers flush nothing"},
    [OPTION_WAIT] = {"--wait", NULL, PERHAPS, "SECONDS", 1, "wait for a book in use by another process, without end or so long"},
    [OPTION_HELP] = {"--help", "-h", WITHOUT, NULL, 0, "this text"},
};

int number_in(const char *text, uint64_t *number) {
    const char *at = text;
    *number = 0;
    for (; *at >= '0' && *at <= '9'; at++) {
        uint64_t digit = (uint64_t)(*at - '0');
        if (*number > (UINT64_MAX - digit) / 10)
            break;
        *number = *number * 10 + digit;
    }
    int leading_zeros = text[0] == '0' && text[1] != '\0';
    return at != text && *at == '\0' && !leading_zeros;
}

int arguments_number(const char *text, uint64_t *number) {
    if (number_in(text, number))
        return 0;
    say(NOT_A_NUMBER, text, UINT64_MAX);
    return -1;
}

static int allowed(const struct command *c, int option) {
    return option == OPTION_WAIT || option == OPTION_HELP || (c->options >> option & 1) != 0;
}

/* A long name may have a value after it. */
static int is_option(int option, const char *word) {
    size_t length = strlen(options[option].name);
    if (options[option].brief && strcmp(word, options[option].brief) == 0)
        return 1;
    return strncmp(word, options[option].name, length) == 0 && (word[length] == '\0' || word[length] == '=');
}

static int find_option(const struct command *c, const char *word) {
    for (int option = 0; option < OPTIONS; option++)
        if (allowed(c, option) && is_option(option, word))
            return option;
    say("%s: %s", word, c->steady && is_option(OPTION_CRASH_AFTER, word) ? c->steady : "no such option");
    return -1;
}

static int misplaced_value(int option, const char *inside) {
    if (!inside && options[option].value == WITH)
        say("%s: %s is missing", options[option].name, options[option].value_name);
    else
        say("%s: takes no value", options[option].name);
    return -1;
}

/* How many words it took, or -1. */
static int read_option(struct arguments *a, const struct command *c, int count, char **words) {
    int option = find_option(c, words[0]);
    if (option < 0)
        return -1;
    enum value value = options[option].value;
    const char *equals = strchr(words[0], '='), *inside = equals ? equals + 1 : NULL;
    if (inside ? value == WITHOUT : value == WITH && count < 2)
        return misplaced_value(option, inside);
    int taken = !inside && value == WITH ? 2 : 1;
    a->values[option] = inside ? inside : words[taken - 1];
    if (options[option].is_number && (inside || taken == 2) && arguments_number(a->values[option], &a->numbers[option]) != 0)
        return -1;
    if (option == OPTION_WAIT && !inside)
        a->numbers[option] = UINT64_MAX;
    return taken;
}

static int complete(const struct arguments *a, const struct command *c) {
    if (a->count < c->least || a->count > c->most) {
        say("too %s arguments: reelbook %s %s", a->count < c->least ? "few" : "many", c->name, c->operands);
        return -1;
    }
    for (int option = 0; option < OPTIONS; option++)
        if ((c->required >> option & 1) != 0 && !a->values[option]) {
            say("%s is missing: reelbook %s %s", options[option].name, c->name, c->operands);
            return -1;
        }
    return 0;
}

/* - alone is an operand, and so is -5: where a number is wanted it is then told that it is none. */
static int is_operand(const char *word) {
    return word[0] != '-' || word[1] == '\0' || (word[1] >= '0' && word[1] <= '9');
}

/* Operands are gathered at the start of `words`; after -- everything is one. */
int arguments_read(struct arguments *a, const struct command *c, int count, char **words) {
    int operands_only = 0;
    *a = (struct arguments){.operands = words};
    for (int i = 0; i < count;) {
        if (operands_only || is_operand(words[i])) {
            a->operands[a->count++] = words[i++];
        } else if (strcmp(words[i], "--") == 0) {
            operands_only = 1;
            i++;
        } else {
            int taken = read_option(a, c, count - i, words + i);
            if (taken < 0)
                return -1;
            i += taken;
        }
    }
    return a->values[OPTION_HELP] ? 0 : complete(a, c);
}

static int put_name(int option) {
    static const char *const before[] = {[WITHOUT] = "", [WITH] = " ", [PERHAPS] = "[="};
    const char *brief = options[option].brief, *value = options[option].value_name;
    enum value kind = options[option].value;
    return printf("  %s%s%s%s%s%s", brief ? brief : "", brief ? ", " : "", options[option].name, before[kind], value ? value : "",
                  kind == PERHAPS ? "]" : "");
}

void arguments_help(const struct command *c) {
    const int column = 22;
    printf("reelbook %s %s\n\n%s\n\n", c->name, c->operands, c->about);
    if (c->more)
        printf("%s\n\n", c->more);
    for (int option = 0; option < OPTIONS; option++) {
        if (!allowed(c, option))
            continue;
        int width = put_name(option);
        printf("%*s%s\n", width < column ? column - width : 1, "", options[option].about);
    }
}
