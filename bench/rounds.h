/* Rounds in which several works take turns, and another one starts each time. */
#ifndef ROUNDS_H
#define ROUNDS_H

#include <stddef.h>

enum { ROUNDS = 11 };

/* Does the works with the numbers from 0 on; ns has the nanoseconds of each in each round. */
void take_turns(size_t works, void (*work)(size_t number), double ns[][ROUNDS]);

double median(const double *rounds);

/* Of the ratios within each round. */
double median_ratio(const double *rounds, const double *to);

#endif
