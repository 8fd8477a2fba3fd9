/* Keys and their values: calls 50 to 53. */
#include <pthread.h>

#include "call.h"

int pthread_key_create(pthread_key_t *key, void (*destructor)(void *))
{
    struct reply reply = call_with(CALL_KEY_CREATE, (uintptr_t)destructor);
    if (reply.error == 0) {
        *key = reply.first;
    }
    return reply.error;
}

int pthread_key_delete(pthread_key_t key)
{
    return call_with(CALL_KEY_DELETE, key).error;
}

int pthread_setspecific(pthread_key_t key, const void *value)
{
    return call(CALL_SETSPECIFIC, key, (uintptr_t)value, 0, 0).error;
}

void *pthread_getspecific(pthread_key_t key)
{
    return (void *)call_with(CALL_GETSPECIFIC, key).first;
}
