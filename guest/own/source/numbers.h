/* The numbers of errors and clocks: this library has those of the kernel. */
#ifndef NUMBERS_H
#define NUMBERS_H

#include <sys/types.h>

static inline int error_number(unsigned int number)
{
    return (int)number;
}

static inline unsigned int clock_number(clockid_t clock)
{
    return (unsigned int)clock;
}

#endif
