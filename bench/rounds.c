#define _POSIX_C_SOURCE 200809L
#include "rounds.h"

#include <stdlib.h>
#include <string.h>
#include <time.h>

/* The processor's time: what other programs take does not count. */
static double now(void) {
    struct timespec t;
    clock_gettime(CLOCK_THREAD_CPUTIME_ID, &t);
    return (double)t.tv_sec * 1e9 + (double)t.tv_nsec;
}

void take_turns(size_t works, void (*work)(size_t number), double ns[][ROUNDS]) {
    for (size_t k = 0; k < ROUNDS; k++)
        for (size_t turn = 0; turn < works; turn++) {
            size_t number = (turn + k) % works;
            double start = now();
            work(number);
            ns[number][k] = now() - start;
        }
}

static int compare(const void *left, const void *right) {
    double x = *(const double *)left, y = *(const double *)right;
    return (x > y) - (x < y);
}

double median(const double *rounds) {
    double sorted[ROUNDS];
    memcpy(sorted, rounds, sizeof sorted);
    qsort(sorted, ROUNDS, sizeof *sorted, compare);
    return sorted[ROUNDS / 2];
}

double median_ratio(const double *rounds, const double *to) {
    double ratios[ROUNDS];
    for (size_t k = 0; k < ROUNDS; k++)
        ratios[k] = rounds[k] / to[k];
    return median(ratios);
}
