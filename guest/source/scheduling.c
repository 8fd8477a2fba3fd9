/* Scheduling: calls 15 to 18, and the range of priorities. */
#include <errno.h>
#include <pthread.h>

#include "call.h"
#include "priorities.h"

int sched_yield(void)
{
    return call_with(CALL_YIELD, 0).error;
}

int pthread_setschedparam(pthread_t thread, int policy, const struct sched_param *parameters)
{
    return call(CALL_SETSCHEDPARAM, thread, (unsigned int)policy, (unsigned int)parameters->sched_priority, 0).error;
}

int pthread_getschedparam(pthread_t thread, int *restrict policy, struct sched_param *restrict parameters)
{
    struct reply reply = call_with(CALL_GETSCHEDPARAM, thread);
    if (reply.error == 0) {
        *policy = (int)reply.first;
        parameters->sched_priority = (int)reply.second;
    }
    return reply.error;
}

int pthread_setschedprio(pthread_t thread, int priority)
{
    return call(CALL_SETSCHEDPRIO, thread, (unsigned int)priority, 0, 0).error;
}

/* Returns a bound of priorities where there is such a policy; -1 and errno else. */
static int bound_of(int policy, int bound)
{
    if (!is_policy(policy)) {
        errno = EINVAL;
        return -1;
    }
    return bound;
}

int sched_get_priority_max(int policy)
{
    return bound_of(policy, PRIORITY_MAX);
}

int sched_get_priority_min(int policy)
{
    return bound_of(policy, PRIORITY_MIN);
}
