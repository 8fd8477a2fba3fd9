/* Mutexes: calls 20 to 26. */
#include <pthread.h>

#include "call.h"

enum { TYPE_ROBUST = 4 }; /* the kernel's type of a robust mutex is this much greater */

int pthread_mutex_init(pthread_mutex_t *restrict mutex, const pthread_mutexattr_t *restrict attributes)
{
    pthread_mutexattr_t defaults;
    if (attributes == NULL) {
        pthread_mutexattr_init(&defaults);
        attributes = &defaults;
    }
    unsigned int type = attributes->type;
    if (attributes->robust == PTHREAD_MUTEX_ROBUST) {
        type += TYPE_ROBUST;
    }
    return call(CALL_MUTEX_INIT, (uintptr_t)mutex, type, attributes->protocol, attributes->ceiling).error;
}

int pthread_mutex_destroy(pthread_mutex_t *mutex)
{
    return call_with(CALL_MUTEX_DESTROY, (uintptr_t)mutex).error;
}

int pthread_mutex_lock(pthread_mutex_t *mutex)
{
    return call_with(CALL_MUTEX_LOCK, (uintptr_t)mutex).error;
}

int pthread_mutex_trylock(pthread_mutex_t *mutex)
{
    return call_with(CALL_MUTEX_TRYLOCK, (uintptr_t)mutex).error;
}

int pthread_mutex_timedlock(pthread_mutex_t *restrict mutex, const struct timespec *restrict deadline)
{
    return call(CALL_MUTEX_TIMEDLOCK, (uintptr_t)mutex, (uintptr_t)deadline, 0, 0).error;
}

int pthread_mutex_unlock(pthread_mutex_t *mutex)
{
    return call_with(CALL_MUTEX_UNLOCK, (uintptr_t)mutex).error;
}

int pthread_mutex_consistent(pthread_mutex_t *mutex)
{
    return call_with(CALL_MUTEX_CONSISTENT, (uintptr_t)mutex).error;
}
