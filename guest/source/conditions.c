/* Condition variables: calls 30 to 35. */
#include <pthread.h>

#include "call.h"

int pthread_cond_init(pthread_cond_t *restrict condition, const pthread_condattr_t *restrict attributes)
{
    (void)attributes;
    return call_with(CALL_COND_INIT, (uintptr_t)condition).error;
}

int pthread_cond_destroy(pthread_cond_t *condition)
{
    return call_with(CALL_COND_DESTROY, (uintptr_t)condition).error;
}

int pthread_cond_wait(pthread_cond_t *restrict condition, pthread_mutex_t *restrict mutex)
{
    return call(CALL_COND_WAIT, (uintptr_t)condition, (uintptr_t)mutex, 0, 0).error;
}

int pthread_cond_timedwait(pthread_cond_t *restrict condition, pthread_mutex_t *restrict mutex,
                           const struct timespec *restrict deadline)
{
    return call(CALL_COND_TIMEDWAIT, (uintptr_t)condition, (uintptr_t)mutex, (uintptr_t)deadline, 0).error;
}

int pthread_cond_signal(pthread_cond_t *condition)
{
    return call_with(CALL_COND_SIGNAL, (uintptr_t)condition).error;
}

int pthread_cond_broadcast(pthread_cond_t *condition)
{
    return call_with(CALL_COND_BROADCAST, (uintptr_t)condition).error;
}

int pthread_condattr_init(pthread_condattr_t *attributes)
{
    attributes->unused = 0;
    return 0;
}

int pthread_condattr_destroy(pthread_condattr_t *attributes)
{
    (void)attributes;
    return 0;
}
