/* The attributes of mutexes, which pthread_mutex_init gives to call 20. */
#include <errno.h>
#include <limits.h>
#include <pthread.h>

#include "priorities.h"

int pthread_mutexattr_init(pthread_mutexattr_t *attributes)
{
    *attributes = (pthread_mutexattr_t){
        .type = PTHREAD_MUTEX_DEFAULT,
        .protocol = PTHREAD_PRIO_NONE,
        .ceiling = PRIORITY_MAX,
        .robust = PTHREAD_MUTEX_STALLED,
    };
    return 0;
}

int pthread_mutexattr_destroy(pthread_mutexattr_t *attributes)
{
    attributes->type = UINT_MAX;
    attributes->robust = PTHREAD_MUTEX_STALLED;
    return 0;
}

int pthread_mutexattr_gettype(const pthread_mutexattr_t *restrict attributes, int *restrict type)
{
    *type = (int)attributes->type;
    return 0;
}

int pthread_mutexattr_settype(pthread_mutexattr_t *attributes, int type)
{
    if (type != PTHREAD_MUTEX_NORMAL && type != PTHREAD_MUTEX_ERRORCHECK && type != PTHREAD_MUTEX_RECURSIVE) {
        return EINVAL;
    }
    attributes->type = (unsigned int)type;
    return 0;
}

int pthread_mutexattr_getprotocol(const pthread_mutexattr_t *restrict attributes, int *restrict protocol)
{
    *protocol = (int)attributes->protocol;
    return 0;
}

int pthread_mutexattr_setprotocol(pthread_mutexattr_t *attributes, int protocol)
{
    if (protocol != PTHREAD_PRIO_NONE && protocol != PTHREAD_PRIO_INHERIT && protocol != PTHREAD_PRIO_PROTECT) {
        return ENOTSUP;
    }
    attributes->protocol = (unsigned int)protocol;
    return 0;
}

int pthread_mutexattr_getprioceiling(const pthread_mutexattr_t *restrict attributes, int *restrict ceiling)
{
    *ceiling = (int)attributes->ceiling;
    return 0;
}

int pthread_mutexattr_setprioceiling(pthread_mutexattr_t *attributes, int ceiling)
{
    if (!is_priority(ceiling)) {
        return EINVAL;
    }
    attributes->ceiling = (unsigned int)ceiling;
    return 0;
}

int pthread_mutexattr_getrobust(const pthread_mutexattr_t *restrict attributes, int *restrict robust)
{
    *robust = (int)attributes->robust;
    return 0;
}

int pthread_mutexattr_setrobust(pthread_mutexattr_t *attributes, int robust)
{
    if (robust != PTHREAD_MUTEX_STALLED && robust != PTHREAD_MUTEX_ROBUST) {
        return EINVAL;
    }
    attributes->robust = (unsigned int)robust;
    return 0;
}
