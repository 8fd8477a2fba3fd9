/* Types that several headers share. POSIX.1-2017: <sys/types.h>; sizes and layouts are this project's. */
#ifndef SYS_TYPES_H
#define SYS_TYPES_H

#include <stddef.h>
#include <stdint.h>
#include <sys/pthread_types.h>

typedef int64_t time_t; /* seconds, signed; two words, the low one first */
typedef int clockid_t;

#endif
