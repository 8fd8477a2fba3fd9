/* Cancellation and cleanup handlers: calls 40 to 45. */
#include <pthread.h>
#include <stdlib.h>

#include "call.h"

int pthread_cancel(pthread_t thread)
{
    return call_with(CALL_CANCEL, thread).error;
}

/* Makes a call whose value is the old setting, and stores that at *old where it is not NULL. */
static int change(enum call_number number, int setting, int *old)
{
    struct reply reply = call_with(number, (unsigned int)setting);
    if (reply.error == 0 && old != NULL) {
        *old = (int)reply.first;
    }
    return reply.error;
}

int pthread_setcancelstate(int state, int *old)
{
    return change(CALL_SETCANCELSTATE, state, old);
}

int pthread_setcanceltype(int type, int *old)
{
    return change(CALL_SETCANCELTYPE, type, old);
}

void pthread_testcancel(void)
{
    call_with(CALL_TESTCANCEL, 0);
}

void push_cleanup_handler(void (*routine)(void *), void *argument)
{
    if (call(CALL_CLEANUP_PUSH, (uintptr_t)routine, (uintptr_t)argument, 0, 0).error != 0) {
        abort();
    }
}

void pop_cleanup_handler(int execute)
{
    struct reply reply = call_with(CALL_CLEANUP_POP, 0);
    if (reply.error != 0) {
        abort();
    }
    if (execute != 0) {
        void (*routine)(void *) = (void (*)(void *))reply.first;
        routine((void *)reply.second);
    }
}
