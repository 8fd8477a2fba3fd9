/* Locks of the libraries themselves: of them alone. A lock is a mutex of the partition's pool, RECURSIVE and INHERIT,
 * so that a thread that waits for it lends its priority to the one that has it. It is set up before main, not at its
 * first use, since a mutex of the static initialiser is neither. */
#ifndef LOCKS_H
#define LOCKS_H

#include <pthread.h>

#define NO_LOCK 0xFFFFFFFF /* the word of a mutex that is none */

#ifdef __cplusplus
extern "C" {
#endif

/* Sets up a lock. Where the pool is full it is none, and to lock it is EINVAL: what it guards goes on unguarded. */
void set_up_lock(pthread_mutex_t *lock);

#ifdef __cplusplus
}
#endif

/* Has `function` called before main and before every constructor, where something of this source file is used. */
#define CALL_BEFORE_MAIN(function) \
    __attribute__((section(".preinit_array"), used)) static void (*const before_main)(void) = (function)

#endif
