/* The parts of check-header that are about Tidy. */
#ifndef TIDY_H
#define TIDY_H

void check_tidying(void);
void check_tidy_refusals(void);

#endif
