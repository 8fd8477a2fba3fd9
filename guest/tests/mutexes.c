/* Mutexes of all types: calls 20 to 25. The section has room for 6 mutexes; one is the console's. */
#include <errno.h>
#include <pthread.h>

#include "create.h"

static pthread_mutex_t shared = PTHREAD_MUTEX_INITIALIZER;
static const struct timespec at_start = {0, 0};
static const struct timespec no_time = {0, 1000000000};

static void init_of_type(pthread_mutex_t *mutex, int type)
{
    pthread_mutexattr_t attributes;
    pthread_mutexattr_init(&attributes);
    pthread_mutexattr_settype(&attributes, type);
    expect("init", pthread_mutex_init(mutex, &attributes), 0);
}

static void normal(void)
{
    pthread_mutex_t mutex = PTHREAD_MUTEX_INITIALIZER;
    expect("unlock of a free one", pthread_mutex_unlock(&mutex), EPERM);
    expect("lock", pthread_mutex_lock(&mutex), 0);
    expect("trylock of one's own", pthread_mutex_trylock(&mutex), EBUSY);
    struct timespec soon;
    clock_gettime(CLOCK_REALTIME, &soon);
    soon.tv_nsec += 100000;
    expect("timedlock of one's own", pthread_mutex_timedlock(&mutex, &soon), ETIMEDOUT);
    expect("destroy of a locked one", pthread_mutex_destroy(&mutex), EBUSY);
    expect("unlock", pthread_mutex_unlock(&mutex), 0);
    expect("unlock again", pthread_mutex_unlock(&mutex), EPERM);
    expect("trylock of a free one", pthread_mutex_trylock(&mutex), 0);
    expect("unlock", pthread_mutex_unlock(&mutex), 0);
    expect("timedlock of a free one: no time is looked at", pthread_mutex_timedlock(&mutex, &no_time), 0);
    expect("unlock", pthread_mutex_unlock(&mutex), 0);
    expect("destroy", pthread_mutex_destroy(&mutex), 0);
    expect("lock of none", pthread_mutex_lock(&mutex), EINVAL);
    expect("destroy of none", pthread_mutex_destroy(&mutex), EINVAL);
    expect("init again", pthread_mutex_init(&mutex, NULL), 0);
    expect("destroy again", pthread_mutex_destroy(&mutex), 0);
}

static void error_checking(void)
{
    pthread_mutex_t mutex;
    init_of_type(&mutex, PTHREAD_MUTEX_ERRORCHECK);
    expect("lock", pthread_mutex_lock(&mutex), 0);
    expect("lock again", pthread_mutex_lock(&mutex), EDEADLK);
    expect("timedlock again", pthread_mutex_timedlock(&mutex, &at_start), EDEADLK);
    expect("trylock again", pthread_mutex_trylock(&mutex), EBUSY);
    expect("unlock", pthread_mutex_unlock(&mutex), 0);
    expect("unlock again", pthread_mutex_unlock(&mutex), EPERM);
    expect("destroy", pthread_mutex_destroy(&mutex), 0);
}

static void recursive(void)
{
    pthread_mutex_t mutex;
    init_of_type(&mutex, PTHREAD_MUTEX_RECURSIVE);
    expect("lock", pthread_mutex_lock(&mutex), 0);
    expect("lock again", pthread_mutex_lock(&mutex), 0);
    expect("trylock again", pthread_mutex_trylock(&mutex), 0);
    for (int i = 0; i < 3; i++) {
        expect("destroy while it is counted", pthread_mutex_destroy(&mutex), EBUSY);
        expect("unlock", pthread_mutex_unlock(&mutex), 0);
    }
    expect("unlock once more", pthread_mutex_unlock(&mutex), EPERM);
    expect("destroy", pthread_mutex_destroy(&mutex), 0);
}

/* Another thread's mutex. It has main's priority and runs while main yields. */
static void *refused(void *unused)
{
    expect("unlock of another's", pthread_mutex_unlock(&shared), EPERM);
    expect("trylock of another's", pthread_mutex_trylock(&shared), EBUSY);
    expect("timedlock of another's, the time has come", pthread_mutex_timedlock(&shared, &at_start), ETIMEDOUT);
    expect("timedlock of another's, no time", pthread_mutex_timedlock(&shared, &no_time), EINVAL);
    expect("destroy of another's", pthread_mutex_destroy(&shared), EBUSY);
    return unused;
}

static void *lock_and_pass(void *letter)
{
    pthread_mutex_lock(&shared);
    pass((char)(uintptr_t)letter);
    pthread_mutex_unlock(&shared);
    return NULL;
}

static void others(void)
{
    pthread_t threads[4];
    pthread_mutex_lock(&shared);
    pthread_create(&threads[0], NULL, refused, NULL);
    pthread_join(threads[0], NULL);
    threads[0] = create_at(SCHED_FIFO, 17, lock_and_pass, 'a');
    threads[1] = create_at(SCHED_FIFO, 18, lock_and_pass, 'b');
    threads[2] = create_at(SCHED_FIFO, 18, lock_and_pass, 'c');
    threads[3] = create_at(SCHED_FIFO, 17, lock_and_pass, 'd');
    pass('m');
    expect("unlock", pthread_mutex_unlock(&shared), 0);
    for (int i = 0; i < 4; i++) {
        pthread_join(threads[i], NULL);
    }
    expect_order("by priority, then by the time of waiting", "mbcad");
    expect("destroy", pthread_mutex_destroy(&shared), 0);
}

static void full(void)
{
    pthread_mutex_t mutexes[5];
    pthread_mutex_t one_more = PTHREAD_MUTEX_INITIALIZER;
    puts("five and the console's"); /* the console's mutex is set up here at the latest */
    for (int i = 0; i < 5; i++) {
        expect("init up to the limit", pthread_mutex_init(&mutexes[i], NULL), 0);
    }
    expect("init above the limit", pthread_mutex_init(&one_more, NULL), ENOMEM);
    expect("lock by the initialiser", pthread_mutex_lock(&one_more), ENOMEM);
    expect("destroy of one", pthread_mutex_destroy(&mutexes[2]), 0);
    expect("lock by the initialiser, with room", pthread_mutex_lock(&one_more), 0);
}

int main(void)
{
    normal();
    error_checking();
    recursive();
    others();
    full();
    return tell();
}
