/* Condition variables: calls 30 to 35. The section has room for 3. */
#include <errno.h>
#include <pthread.h>

#include "create.h"

static pthread_mutex_t mutex = PTHREAD_MUTEX_INITIALIZER;
static pthread_mutex_t other = PTHREAD_MUTEX_INITIALIZER;
static pthread_cond_t condition = PTHREAD_COND_INITIALIZER;
static const struct timespec at_start = {0, 0};

static void *wait_and_pass(void *letter)
{
    pthread_mutex_lock(&mutex);
    pthread_cond_wait(&condition, &mutex);
    pass((char)(uintptr_t)letter);
    pthread_mutex_unlock(&mutex);
    return NULL;
}

static void *lock_and_pass(void *letter)
{
    pthread_mutex_lock(&mutex);
    pass((char)(uintptr_t)letter);
    pthread_mutex_unlock(&mutex);
    return NULL;
}

static void refused(void)
{
    const struct timespec no_time = {0, -1};
    expect("wait without the mutex", pthread_cond_wait(&condition, &mutex), EPERM);
    pthread_mutex_lock(&mutex);
    expect("no time", pthread_cond_timedwait(&condition, &mutex, &no_time), EINVAL);
    expect("the time has come", pthread_cond_timedwait(&condition, &mutex, &at_start), ETIMEDOUT);
    expect("the mutex is the caller's again", pthread_mutex_trylock(&mutex), EBUSY);
    struct timespec soon;
    clock_gettime(CLOCK_REALTIME, &soon);
    soon.tv_nsec += 200000;
    expect("the time comes", pthread_cond_timedwait(&condition, &mutex, &soon), ETIMEDOUT);
    struct timespec now;
    clock_gettime(CLOCK_REALTIME, &now);
    expect("not before it", now.tv_sec > soon.tv_sec || now.tv_nsec >= soon.tv_nsec, 1);
    expect("the mutex is the caller's again", pthread_mutex_unlock(&mutex), 0);
    expect("signal without waiters", pthread_cond_signal(&condition), 0);
    expect("broadcast without waiters", pthread_cond_broadcast(&condition), 0);
}

static void order(void)
{
    pthread_t threads[4];
    threads[0] = create_at(SCHED_FIFO, 17, wait_and_pass, 'a');
    threads[1] = create_at(SCHED_FIFO, 18, wait_and_pass, 'b');
    threads[2] = create_at(SCHED_FIFO, 18, wait_and_pass, 'c');
    threads[3] = create_at(SCHED_FIFO, 17, wait_and_pass, 'd');
    expect("destroy with waiters", pthread_cond_destroy(&condition), EBUSY);
    expect("destroy of their mutex", pthread_mutex_destroy(&mutex), EBUSY);
    pthread_mutex_lock(&other);
    expect("wait with another mutex", pthread_cond_wait(&condition, &other), EINVAL);
    pthread_mutex_unlock(&other);
    expect("signal", pthread_cond_signal(&condition), 0);
    expect_order("one waiter, the first of the greatest", "b");
    pthread_mutex_lock(&mutex);
    expect("broadcast", pthread_cond_broadcast(&condition), 0);
    expect_order("none before the mutex is free", "");
    pthread_mutex_unlock(&mutex);
    for (int i = 0; i < 4; i++) {
        pthread_join(threads[i], NULL);
    }
    expect_order("all others", "cad");
}

/* The mutex goes to its waiter while the time has come already. */
static void past(void)
{
    pthread_mutex_lock(&mutex);
    pthread_t thread = create_at(SCHED_FIFO, 17, lock_and_pass, 'w');
    expect("the time has come", pthread_cond_timedwait(&condition, &mutex, &at_start), ETIMEDOUT);
    expect_order("the mutex's waiter had it in between", "w");
    expect("the mutex is the caller's again", pthread_mutex_unlock(&mutex), 0);
    pthread_join(thread, NULL);
}

static void counted(void)
{
    pthread_mutex_t recursive;
    pthread_mutexattr_t attributes;
    pthread_mutexattr_init(&attributes);
    pthread_mutexattr_settype(&attributes, PTHREAD_MUTEX_RECURSIVE);
    pthread_mutex_init(&recursive, &attributes);
    pthread_mutex_lock(&recursive);
    pthread_mutex_lock(&recursive);
    expect("wait with one counted twice", pthread_cond_timedwait(&condition, &recursive, &at_start), ETIMEDOUT);
    expect("unlock", pthread_mutex_unlock(&recursive), 0);
    expect("unlock", pthread_mutex_unlock(&recursive), 0);
    expect("unlock once more", pthread_mutex_unlock(&recursive), EPERM);
}

static void full(void)
{
    pthread_cond_t conditions[2];
    pthread_cond_t one_more = PTHREAD_COND_INITIALIZER;
    expect("init", pthread_cond_init(&conditions[0], NULL), 0);
    expect("init", pthread_cond_init(&conditions[1], NULL), 0);
    expect("init above the limit", pthread_cond_init(&one_more, NULL), ENOMEM);
    expect("signal by the initialiser", pthread_cond_signal(&one_more), ENOMEM);
    expect("destroy", pthread_cond_destroy(&conditions[0]), 0);
    expect("signal of none", pthread_cond_signal(&conditions[0]), EINVAL);
    expect("wait on none", pthread_cond_wait(&conditions[0], &mutex), EINVAL);
    expect("destroy of none", pthread_cond_destroy(&conditions[0]), EINVAL);
    expect("signal by the initialiser, with room", pthread_cond_signal(&one_more), 0);
}

int main(void)
{
    refused();
    order();
    past();
    counted();
    full();
    return tell();
}
