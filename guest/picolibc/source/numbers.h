/* The numbers of errors and clocks: picolibc's are others than the kernel's. */
#ifndef NUMBERS_H
#define NUMBERS_H

#include <sys/types.h>

/* Returns picolibc's number of an error that the kernel returns, and 0 for 0. The kernel returns no other number than
 * those of docs/GUEST_ABI.md; any other would be that number above __ELASTERROR, where picolibc has no errors. */
int error_number(unsigned int number);

/* Returns the kernel's number of a clock of picolibc's. Of any other clock it is a number for which the kernel returns
 * EINVAL. */
unsigned int clock_number(clockid_t clock);

#endif
