#include "form.h"

#include <stdio.h>

void print_names(const struct field *fields, size_t count) {
    for (size_t i = 0; i < count; i++)
        printf("%s%s", i > 0 ? "," : "", fields[i].name);
    putchar('\n');
}

void print_fields(enum form form, const struct field *fields, size_t count) {
    for (size_t i = 0; i < count; i++) {
        const char *before = i > 0 ? "," : form == FORM_JSON ? "{" : "";
        if (form == FORM_JSON)
            printf("%s\"%s\":%" PRIu64, before, fields[i].name, fields[i].value);
        else
            printf("%s%" PRIu64, before, fields[i].value);
    }
    if (form == FORM_CSV)
        putchar('\n');
}

/* In JSON a line for each frame too: one line for all may be too long for an editor. */
void print_list(enum form form, uint64_t reel, const uint64_t *frames, uint64_t count) {
    if (form == FORM_CSV)
        puts("reel,frame");
    if (form == FORM_JSON)
        putchar('[');
    for (uint64_t i = 0; i < count; i++)
        if (form == FORM_CSV)
            printf("%" PRIu64 ",%" PRIu64 "\n", reel, frames[i]);
        else if (form == FORM_JSON)
            printf("%s%" PRIu64, i > 0 ? ",\n" : "", frames[i]);
        else
            printf("%" PRIu64 "\n", frames[i]);
    if (form == FORM_JSON)
        puts("]");
}
