/* Types: picolibc's, and those of threads. POSIX.1-2017: <sys/types.h>. */
#ifndef PTK_SYS_TYPES_H
#define PTK_SYS_TYPES_H

#include_next <sys/types.h>

#include <sys/pthread_types.h>

#endif
