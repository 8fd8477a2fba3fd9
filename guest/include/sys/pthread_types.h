/* Types of threads. POSIX.1-2017: <sys/types.h>, of which both libraries' include this; sizes and layouts are this
 * project's. */
#ifndef SYS_PTHREAD_TYPES_H
#define SYS_PTHREAD_TYPES_H

#include <stddef.h>
#include <stdint.h>

typedef unsigned int pthread_t;     /* the number of a thread, 1 to 32 */
typedef unsigned int pthread_key_t; /* the number of a key, from 1 */

/* One word: 0 from the initialiser, then the number of the mutex. */
typedef struct {
    unsigned int word;
} pthread_mutex_t;

/* One word: 0 from the initialiser, then the number of the condition variable. */
typedef struct {
    unsigned int word;
} pthread_cond_t;

/* The attributes of a new thread. The first five words are those that call 10 reads. */
typedef struct {
    unsigned int detach_state;
    unsigned int inherit_sched;
    unsigned int policy;
    unsigned int priority;
    uintptr_t stack_top; /* 0: the default stack */
    size_t stack_size;   /* that of pthread_attr_setstack; 0: the default stack */
} pthread_attr_t;

/* The attributes of a new mutex. */
typedef struct {
    unsigned int type;
    unsigned int protocol;
    unsigned int ceiling;
    unsigned int robust;
} pthread_mutexattr_t;

/* The attributes of a new condition variable: the profile has none. */
typedef struct {
    unsigned int unused;
} pthread_condattr_t;

#endif
