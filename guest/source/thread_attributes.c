/* The attributes of threads, which pthread_create gives to call 10. */
#include <errno.h>
#include <limits.h>
#include <pthread.h>

#include "priorities.h"

enum { STACK_UNIT = 16 }; /* a stack begins and ends at a multiple of it */

int pthread_attr_init(pthread_attr_t *attributes)
{
    *attributes = (pthread_attr_t){
        .detach_state = PTHREAD_CREATE_JOINABLE,
        .inherit_sched = PTHREAD_INHERIT_SCHED,
        .policy = SCHED_FIFO,
        .priority = PRIORITY_OF_MAIN,
        .stack_top = 0,
        .stack_size = 0,
    };
    return 0;
}

int pthread_attr_destroy(pthread_attr_t *attributes)
{
    attributes->detach_state = UINT_MAX;
    return 0;
}

int pthread_attr_getdetachstate(const pthread_attr_t *attributes, int *state)
{
    *state = (int)attributes->detach_state;
    return 0;
}

int pthread_attr_setdetachstate(pthread_attr_t *attributes, int state)
{
    if (state != PTHREAD_CREATE_JOINABLE && state != PTHREAD_CREATE_DETACHED) {
        return EINVAL;
    }
    attributes->detach_state = (unsigned int)state;
    return 0;
}

int pthread_attr_getinheritsched(const pthread_attr_t *restrict attributes, int *restrict inherit)
{
    *inherit = (int)attributes->inherit_sched;
    return 0;
}

int pthread_attr_setinheritsched(pthread_attr_t *attributes, int inherit)
{
    if (inherit != PTHREAD_INHERIT_SCHED && inherit != PTHREAD_EXPLICIT_SCHED) {
        return EINVAL;
    }
    attributes->inherit_sched = (unsigned int)inherit;
    return 0;
}

int pthread_attr_getschedparam(const pthread_attr_t *restrict attributes, struct sched_param *restrict parameters)
{
    parameters->sched_priority = (int)attributes->priority;
    return 0;
}

int pthread_attr_setschedparam(pthread_attr_t *restrict attributes, const struct sched_param *restrict parameters)
{
    if (!is_priority(parameters->sched_priority)) {
        return EINVAL;
    }
    attributes->priority = (unsigned int)parameters->sched_priority;
    return 0;
}

int pthread_attr_getschedpolicy(const pthread_attr_t *restrict attributes, int *restrict policy)
{
    *policy = (int)attributes->policy;
    return 0;
}

int pthread_attr_setschedpolicy(pthread_attr_t *attributes, int policy)
{
    if (!is_policy(policy)) {
        return ENOTSUP;
    }
    attributes->policy = (unsigned int)policy;
    return 0;
}

int pthread_attr_getscope(const pthread_attr_t *restrict attributes, int *restrict scope)
{
    (void)attributes;
    *scope = PTHREAD_SCOPE_PROCESS;
    return 0;
}

int pthread_attr_setscope(pthread_attr_t *attributes, int scope)
{
    (void)attributes;
    switch (scope) {
    case PTHREAD_SCOPE_PROCESS:
        return 0;
    case PTHREAD_SCOPE_SYSTEM:
        return ENOTSUP;
    default:
        return EINVAL;
    }
}

int pthread_attr_getstack(const pthread_attr_t *restrict attributes, void **restrict lowest, size_t *restrict size)
{
    *lowest = (void *)(attributes->stack_top - attributes->stack_size);
    *size = attributes->stack_size;
    return 0;
}

int pthread_attr_setstack(pthread_attr_t *attributes, void *lowest, size_t size)
{
    uintptr_t address = (uintptr_t)lowest;
    if (size < PTHREAD_STACK_MIN || size % STACK_UNIT != 0 || address % STACK_UNIT != 0) {
        return EINVAL;
    }
    attributes->stack_top = address + size;
    attributes->stack_size = size;
    return 0;
}
