/* Threads: pthread_create, pthread_join, pthread_detach, pthread_exit, pthread_self, pthread_equal. The section has
 * room for 4 threads. */
#include <errno.h>
#include <pthread.h>

#include "expect.h"

static pthread_mutex_t gate = PTHREAD_MUTEX_INITIALIZER;

static void *add_two(void *argument)
{
    return (void *)((uintptr_t)argument + 2);
}

static void *exit_with(void *argument)
{
    pthread_exit(argument);
}

static void *pass_gate(void *argument)
{
    pthread_mutex_lock(&gate);
    pthread_mutex_unlock(&gate);
    return argument;
}

static void *join_argument(void *argument)
{
    void *result = NULL;
    int error = pthread_join((pthread_t)argument, &result);
    return error == 0 ? result : NULL;
}

static void results(void)
{
    pthread_t thread = 0;
    void *result = NULL;
    expect("create", pthread_create(&thread, NULL, add_two, (void *)5), 0);
    expect("the least free number", (int)thread, 2);
    expect("not equal", pthread_equal(thread, pthread_self()), 0);
    expect("join", pthread_join(thread, &result), 0);
    expect("the result of a return", (int)result, 7);
    expect("join: the number is free", pthread_join(thread, NULL), ESRCH);
    expect("create one that calls pthread_exit", pthread_create(&thread, NULL, exit_with, (void *)9), 0);
    expect("the number is used again", (int)thread, 2);
    expect("join of it", pthread_join(thread, &result), 0);
    expect("the result of pthread_exit", (int)result, 9);
    expect("join of no thread", pthread_join(33, NULL), ESRCH);
    expect("join of oneself", pthread_join(pthread_self(), NULL), EDEADLK);
}

static void detached(void)
{
    pthread_t thread = 0;
    pthread_create(&thread, NULL, add_two, NULL);
    expect("detach", pthread_detach(thread), 0);
    expect("detach again", pthread_detach(thread), EINVAL);
    expect("join of a detached one", pthread_join(thread, NULL), EINVAL);
    sched_yield();
    expect("detach: it has ended", pthread_detach(thread), ESRCH);
    pthread_create(&thread, NULL, add_two, NULL);
    sched_yield();
    expect("detach of an ended one", pthread_detach(thread), 0);
    expect("its number is free", pthread_join(thread, NULL), ESRCH);
}

static void joined(void)
{
    pthread_t target = 0;
    pthread_t joiner = 0;
    void *result = NULL;
    pthread_mutex_lock(&gate);
    pthread_create(&target, NULL, pass_gate, (void *)3);
    pthread_create(&joiner, NULL, join_argument, (void *)target);
    sched_yield();
    expect("a second joiner", pthread_join(target, NULL), EINVAL);
    expect("detach of one that is being joined", pthread_detach(target), EINVAL);
    pthread_mutex_unlock(&gate);
    expect("join of the joiner", pthread_join(joiner, &result), 0);
    expect("what it got", (int)result, 3);
}

static void full(void)
{
    pthread_t threads[3] = {0, 0, 0};
    pthread_t one_more = 77;
    for (int i = 0; i < 3; i++) {
        expect("create up to the limit", pthread_create(&threads[i], NULL, add_two, NULL), 0);
        expect("its number", (int)threads[i], i + 2);
    }
    expect("create above the limit", pthread_create(&one_more, NULL, add_two, NULL), EAGAIN);
    expect("no number is stored", (int)one_more, 77);
    for (int i = 0; i < 3; i++) {
        expect("join of each", pthread_join(threads[i], NULL), 0);
    }
}

/* Main has ended by pthread_exit, and the partition goes on. */
static void *last(void *main_thread)
{
    void *result = NULL;
    expect("join of main", pthread_join((pthread_t)main_thread, &result), 0);
    expect("main's result", (int)result, 21);
    tell();
    return (void *)5; /* the last thread's end is exit 0, whatever its result */
}

int main(void)
{
    expect("main's number", (int)pthread_self(), 1);
    expect("equal", pthread_equal(pthread_self(), 1) != 0, 1);
    results();
    detached();
    joined();
    full();
    pthread_t thread = 0;
    pthread_create(&thread, NULL, last, (void *)pthread_self());
    pthread_exit((void *)21);
}
