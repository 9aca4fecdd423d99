/* Stores to a piece of memory, one by one, for test programs on Linux and x86-64. It is write-protected: a store faults, and
 * is let through alone by the trap flag. It is made twice, first on the complement of the memory and then on the memory, and
 * noted at every byte that has changed in one of the two: whatever it stores there, and however many bytes at once. Not seen
 * is a byte, other than the first, of an instruction that reads the memory too and puts back what it read. A store to other
 * memory that may not be written ends the program. */
#ifndef WATCH_H
#define WATCH_H

#include <stddef.h>
#include <stdint.h>

/* Zeroed memory that can be watched: it has its pages for itself. */
uint64_t *watchable(size_t words);
void watchable_free(uint64_t *memory, size_t words);

/* Notes stores from here on, and no more. One piece at a time. */
void watch(uint64_t *memory, size_t words);
void unwatch(void);

/* How many stores the last one that was watched had to a word of it; and how many to some bytes of a word and not to others. */
unsigned noted(size_t word);
uint64_t noted_in_part(void);

#endif
