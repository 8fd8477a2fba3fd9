/* Robust mutexes: what becomes of a mutex whose owner ended. */
#include <errno.h>
#include <pthread.h>

#include "expect.h"

static pthread_mutex_t mutex;
static pthread_cond_t condition = PTHREAD_COND_INITIALIZER;

static void init_of(int type, int robust)
{
    pthread_mutexattr_t attributes;
    pthread_mutexattr_init(&attributes);
    pthread_mutexattr_settype(&attributes, type);
    pthread_mutexattr_setrobust(&attributes, robust);
    expect("init", pthread_mutex_init(&mutex, &attributes), 0);
}

static void *lock_and_end(void *unused)
{
    pthread_mutex_lock(&mutex);
    return unused;
}

static void *lock_yield_and_end(void *unused)
{
    pthread_mutex_lock(&mutex);
    sched_yield();
    return unused;
}

/* What a lock answers; the mutex is unlocked where the caller has it. */
static void *tell_lock(void *unused)
{
    (void)unused;
    int error = pthread_mutex_lock(&mutex);
    if (error == 0 || error == EOWNERDEAD) {
        pthread_mutex_unlock(&mutex);
    }
    return (void *)error;
}

/* What a condition wait answers. */
static void *tell_wait(void *unused)
{
    (void)unused;
    pthread_mutex_lock(&mutex);
    int error = pthread_cond_wait(&condition, &mutex);
    pthread_mutex_consistent(&mutex);
    pthread_mutex_unlock(&mutex);
    return (void *)error;
}

static pthread_t started(void *(*routine)(void *))
{
    pthread_t thread = 0;
    expect("create", pthread_create(&thread, NULL, routine, NULL), 0);
    return thread;
}

static int result_of(pthread_t thread)
{
    void *result = NULL;
    expect("join", pthread_join(thread, &result), 0);
    return (int)result;
}

static void repaired(void)
{
    init_of(PTHREAD_MUTEX_NORMAL, PTHREAD_MUTEX_ROBUST);
    expect("consistent: its owner did not end", pthread_mutex_consistent(&mutex), EINVAL);
    result_of(started(lock_and_end));
    expect("consistent by none that owns it", pthread_mutex_consistent(&mutex), EPERM);
    expect("lock after its owner's end", pthread_mutex_lock(&mutex), EOWNERDEAD);
    expect("the caller owns it", pthread_mutex_trylock(&mutex), EBUSY);
    expect("consistent", pthread_mutex_consistent(&mutex), 0);
    expect("consistent again", pthread_mutex_consistent(&mutex), EINVAL);
    expect("unlock", pthread_mutex_unlock(&mutex), 0);
    expect("lock as before", pthread_mutex_lock(&mutex), 0);
    expect("unlock", pthread_mutex_unlock(&mutex), 0);
    expect("destroy", pthread_mutex_destroy(&mutex), 0);
}

static void lost(void)
{
    init_of(PTHREAD_MUTEX_ERRORCHECK, PTHREAD_MUTEX_ROBUST);
    pthread_t owner = started(lock_yield_and_end);
    pthread_t heir = started(tell_lock);
    pthread_t waiter = started(tell_lock);
    expect("the heir, which waited first", result_of(heir), EOWNERDEAD);
    expect("a waiter, as the heir unlocked it", result_of(waiter), ENOTRECOVERABLE);
    result_of(owner);
    expect("lock", pthread_mutex_lock(&mutex), ENOTRECOVERABLE);
    expect("trylock", pthread_mutex_trylock(&mutex), ENOTRECOVERABLE);
    expect("consistent", pthread_mutex_consistent(&mutex), EINVAL);
    expect("unlock", pthread_mutex_unlock(&mutex), EPERM);
    expect("destroy", pthread_mutex_destroy(&mutex), 0);
}

static void counted(void)
{
    init_of(PTHREAD_MUTEX_RECURSIVE, PTHREAD_MUTEX_ROBUST);
    result_of(started(lock_and_end));
    expect("trylock after its owner's end", pthread_mutex_trylock(&mutex), EOWNERDEAD);
    expect("lock again", pthread_mutex_lock(&mutex), 0);
    expect("consistent", pthread_mutex_consistent(&mutex), 0);
    expect("unlock", pthread_mutex_unlock(&mutex), 0);
    expect("unlock", pthread_mutex_unlock(&mutex), 0);
    expect("destroy", pthread_mutex_destroy(&mutex), 0);
}

static void waited(void)
{
    init_of(PTHREAD_MUTEX_NORMAL, PTHREAD_MUTEX_ROBUST);
    pthread_t waiter = started(tell_wait);
    sched_yield();
    result_of(started(lock_and_end));
    expect("signal", pthread_cond_signal(&condition), 0);
    expect("the waiter's answer", result_of(waiter), EOWNERDEAD);
    expect("lock", pthread_mutex_lock(&mutex), 0);
    expect("unlock", pthread_mutex_unlock(&mutex), 0);
    expect("destroy", pthread_mutex_destroy(&mutex), 0);
}

static void stalled(void)
{
    const struct timespec at_start = {0, 0};
    init_of(PTHREAD_MUTEX_NORMAL, PTHREAD_MUTEX_STALLED);
    result_of(started(lock_and_end));
    expect("trylock of one not robust", pthread_mutex_trylock(&mutex), EBUSY);
    expect("timedlock of one not robust", pthread_mutex_timedlock(&mutex, &at_start), ETIMEDOUT);
    expect("consistent of one not robust", pthread_mutex_consistent(&mutex), EINVAL);
    expect("destroy", pthread_mutex_destroy(&mutex), EBUSY);
}

int main(void)
{
    repaired();
    lost();
    counted();
    waited();
    stalled();
    return tell();
}
