/* Threads: calls 10 to 14. */
#include <pthread.h>

#include "call.h"
#include "thread_local.h"

int pthread_create(pthread_t *restrict thread, const pthread_attr_t *restrict attributes, void *(*routine)(void *),
                   void *restrict argument)
{
    if (create_with_thread_locals != NULL) {
        return create_with_thread_locals(thread, attributes, routine, argument);
    }
    struct reply reply = call(CALL_CREATE, (uintptr_t)attributes, (uintptr_t)routine, (uintptr_t)argument, 0);
    if (reply.error == 0) {
        *thread = reply.first;
    }
    return reply.error;
}

void pthread_exit(void *result)
{
    call_with(CALL_PTHREAD_EXIT, (uintptr_t)result);
    __builtin_unreachable();
}

int pthread_join(pthread_t thread, void **result)
{
    struct reply reply = call_with(CALL_JOIN, thread);
    if (reply.error == 0 && result != NULL) {
        *result = (void *)reply.first;
    }
    return reply.error;
}

int pthread_detach(pthread_t thread)
{
    return call_with(CALL_DETACH, thread).error;
}

pthread_t pthread_self(void)
{
    return call_with(CALL_SELF, 0).first;
}

int pthread_equal(pthread_t left, pthread_t right)
{
    return left == right;
}
