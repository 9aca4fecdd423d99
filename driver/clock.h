/* Time that only goes on. */
#ifndef CLOCK_H
#define CLOCK_H

double clock_seconds(void);

#endif
