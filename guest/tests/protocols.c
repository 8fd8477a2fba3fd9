/* Protocols of mutexes: what an owner gains shows in the order in which threads run. */
#include <errno.h>
#include <pthread.h>

#include "create.h"

static pthread_mutex_t first;
static pthread_mutex_t second;

static void init_of_protocol(pthread_mutex_t *mutex, int protocol, int ceiling)
{
    pthread_mutexattr_t attributes;
    pthread_mutexattr_init(&attributes);
    pthread_mutexattr_setprotocol(&attributes, protocol);
    pthread_mutexattr_setprioceiling(&attributes, ceiling);
    expect("init", pthread_mutex_init(mutex, &attributes), 0);
}

static void *pass_once(void *letter)
{
    pass((char)(uintptr_t)letter);
    return NULL;
}

static void *lock_and_pass(void *letter)
{
    pthread_mutex_lock(&first);
    pass((char)(uintptr_t)letter);
    pthread_mutex_unlock(&first);
    return NULL;
}

/* Owns the second mutex and waits for the first. */
static void *lock_both_and_pass(void *letter)
{
    pthread_mutex_lock(&second);
    pthread_mutex_lock(&first);
    pass((char)(uintptr_t)letter);
    pthread_mutex_unlock(&first);
    pthread_mutex_unlock(&second);
    return NULL;
}

static void *lock_second_and_pass(void *letter)
{
    pthread_mutex_lock(&second);
    pass((char)(uintptr_t)letter);
    pthread_mutex_unlock(&second);
    return NULL;
}

/* Main (5) owns the first mutex, h (20) waits for it, m (10) wants nothing. */
static void inversion(int protocol, const char *what, const char *expected)
{
    pthread_t threads[2];
    init_of_protocol(&first, protocol, 32);
    pthread_mutex_lock(&first);
    threads[0] = create_at(SCHED_FIFO, 20, lock_and_pass, 'h');
    threads[1] = create_at(SCHED_FIFO, 10, pass_once, 'm');
    pass('l');
    pthread_mutex_unlock(&first);
    pthread_join(threads[0], NULL);
    pthread_join(threads[1], NULL);
    expect_order(what, expected);
    pthread_mutex_destroy(&first);
}

/* Main (5) owns the first mutex, b (8) the second and waits for the first, c (20) waits for the second. */
static void chain(void)
{
    pthread_t threads[3];
    init_of_protocol(&first, PTHREAD_PRIO_INHERIT, 32);
    init_of_protocol(&second, PTHREAD_PRIO_INHERIT, 32);
    pthread_mutex_lock(&first);
    threads[0] = create_at(SCHED_FIFO, 8, lock_both_and_pass, 'b');
    threads[1] = create_at(SCHED_FIFO, 20, lock_second_and_pass, 'c');
    threads[2] = create_at(SCHED_FIFO, 10, pass_once, 'm');
    pass('l');
    pthread_mutex_unlock(&first);
    for (int i = 0; i < 3; i++) {
        pthread_join(threads[i], NULL);
    }
    expect_order("INHERIT over two mutexes", "lbcm");
    pthread_mutex_destroy(&first);
    pthread_mutex_destroy(&second);
}

static void ceiling(void)
{
    init_of_protocol(&first, PTHREAD_PRIO_PROTECT, 15);
    expect("lock under the ceiling", pthread_mutex_lock(&first), 0);
    pthread_t below = create_at(SCHED_FIFO, 15, pass_once, 'm');
    pthread_t above = create_at(SCHED_FIFO, 16, pass_once, 'h');
    pass('l');
    expect("unlock", pthread_mutex_unlock(&first), 0);
    pthread_join(below, NULL);
    pthread_join(above, NULL);
    expect_order("PROTECT: not above the ceiling, and not below", "hlm");
    pthread_setschedprio(pthread_self(), 16);
    expect("lock above the ceiling", pthread_mutex_lock(&first), EINVAL);
    expect("trylock above the ceiling", pthread_mutex_trylock(&first), EINVAL);
    pthread_setschedprio(pthread_self(), 15);
    expect("lock at the ceiling", pthread_mutex_lock(&first), 0);
    expect("unlock", pthread_mutex_unlock(&first), 0);
    pthread_mutex_destroy(&first);
}

int main(void)
{
    pthread_setschedprio(pthread_self(), 5);
    inversion(PTHREAD_PRIO_NONE, "NONE", "mlh");
    inversion(PTHREAD_PRIO_INHERIT, "INHERIT", "lhm");
    chain();
    ceiling();
    return tell();
}
