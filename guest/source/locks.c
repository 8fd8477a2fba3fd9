/* Locks of the libraries themselves. */
#include "locks.h"

#include "call.h"

void set_up_lock(pthread_mutex_t *lock)
{
    if (call(CALL_MUTEX_INIT, (uintptr_t)lock, PTHREAD_MUTEX_RECURSIVE, PTHREAD_PRIO_INHERIT, 0).error != 0) {
        lock->word = NO_LOCK;
    }
}
