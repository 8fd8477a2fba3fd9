/* Static objects of functions in C++ (the Itanium C++ ABI, "One-time Construction API"): one lock for all, which the
 * constructing thread has until the object is made. So a constructor must not wait for a thread that may construct one.
 * */
#include <pthread.h>
#include <stdint.h>

#include "locks.h"

static pthread_mutex_t lock;

static void set_up()
{
    set_up_lock(&lock);
}

CALL_BEFORE_MAIN(set_up);

extern "C" {

/* Returns 1 where the caller is to make the object: it has the lock then. The first byte says that it is made. */
int __cxa_guard_acquire(volatile uint8_t *guard)
{
    if (*guard != 0) {
        return 0;
    }
    pthread_mutex_lock(&lock);
    if (*guard != 0) {
        pthread_mutex_unlock(&lock);
        return 0;
    }
    return 1;
}

void __cxa_guard_release(volatile uint8_t *guard)
{
    *guard = 1;
    pthread_mutex_unlock(&lock);
}

void __cxa_guard_abort(volatile uint8_t *)
{
    pthread_mutex_unlock(&lock);
}
}
