/* Limits: those of the compiler, and those of POSIX.1-2017 <limits.h> that do not hang on the configuration. How many
 * threads, mutexes, condition variables and keys there may be is said by the partition's section. */
#ifndef PTK_LIMITS_H
#define PTK_LIMITS_H

#include_next <limits.h>

#define PTHREAD_DESTRUCTOR_ITERATIONS 4 /* rounds of destructors at a thread's end */
#define PTHREAD_STACK_MIN 256           /* the least stack that pthread_attr_setstack takes, in bytes */

#endif
