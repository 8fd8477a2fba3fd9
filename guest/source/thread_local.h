/* Thread-local variables: of the libraries alone. Each thread number has a block, which the link places, and tp holds
 * its address while a thread of that number runs. The kernel starts every thread with tp 0, which would be the address
 * of the program's text. */
#ifndef THREAD_LOCAL_H
#define THREAD_LOCAL_H

#include <pthread.h>

/* What follows is weak, and NULL in a program without thread-local variables: guest/build has the linker take it into
 * the others (-u). */

/* Gives the calling thread its thread-local variables as they were initialised, and sets tp. */
__attribute__((weak)) void begin_thread_locals(void);

/* pthread_create of a program that has thread-local variables: the new thread begins with its own. */
__attribute__((weak)) int create_with_thread_locals(pthread_t *thread, const pthread_attr_t *attributes,
                                                    void *(*routine)(void *), void *argument);

#endif
