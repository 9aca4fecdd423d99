/* The part of check-header that is about Has. */
#ifndef LOOKUPS_H
#define LOOKUPS_H

void check_lookups(void);

#endif
