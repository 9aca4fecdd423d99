/* The part of check-header that is about Convert. */
#ifndef CONVERT_H
#define CONVERT_H

void check_conversions(void);

#endif
