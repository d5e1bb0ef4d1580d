/* The clock, and a painted stack to see how deep a call goes. */
#ifndef MEASURE_H
#define MEASURE_H

#include <stddef.h>

double microseconds(void);

/* How many bytes of stack this takes, beside a function that does nothing. */
size_t deepest(void (*run)(void));

#endif
