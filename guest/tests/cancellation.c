/* Cancellation: where a request acts, and where not. */
#include <console.h>
#include <errno.h>
#include <pthread.h>
#include <stdbool.h>

#include "expect.h"

static pthread_mutex_t mutex = PTHREAD_MUTEX_INITIALIZER;
static pthread_cond_t condition = PTHREAD_COND_INITIALIZER;
static bool has_mutex;

static void note_mutex(void *unused)
{
    (void)unused;
    has_mutex = pthread_mutex_unlock(&mutex) == 0;
}

static void *test(void *unused)
{
    sched_yield();
    pthread_testcancel();
    return unused;
}

static void *sleep_long(void *unused)
{
    clock_nanosleep(CLOCK_REALTIME, TIMER_ABSTIME, &(struct timespec){1000, 0}, NULL);
    return unused;
}

static void *wait_for_signal(void *unused)
{
    pthread_mutex_lock(&mutex);
    pthread_cleanup_push(note_mutex, NULL);
    pthread_cond_wait(&condition, &mutex);
    pthread_cleanup_pop(1);
    return unused;
}

static void *wait_for_time(void *unused)
{
    pthread_mutex_lock(&mutex);
    pthread_cleanup_push(note_mutex, NULL);
    pthread_cond_timedwait(&condition, &mutex, &(struct timespec){1000, 0});
    pthread_cleanup_pop(1);
    return unused;
}

static void *wait_for_input(void *unused)
{
    getchar();
    return unused;
}

static void *wait_for_thread(void *thread)
{
    pthread_join((pthread_t)thread, NULL);
    return NULL;
}

static void *compute(void *unused)
{
    pthread_setcanceltype(PTHREAD_CANCEL_ASYNCHRONOUS, NULL);
    sched_yield();
    for (volatile bool is_going = true; is_going;) {
    }
    return unused;
}

static void *wait_for_mutex(void *unused)
{
    pthread_mutex_lock(&mutex);
    pthread_mutex_unlock(&mutex);
    return unused;
}

static void *put_output(void *unused)
{
    sched_yield();
    puts("a whole line"); /* no cancellation point here */
    console_put('!');     /* but here: it is not put */
    return unused;
}

static void *disable_then_enable(void *unused)
{
    int old = -1;
    expect("disable", pthread_setcancelstate(PTHREAD_CANCEL_DISABLE, &old), 0);
    expect("it was enabled", old, PTHREAD_CANCEL_ENABLE);
    sched_yield();
    pthread_testcancel();
    expect("enable", pthread_setcancelstate(PTHREAD_CANCEL_ENABLE, &old), 0);
    expect("it was disabled", old, PTHREAD_CANCEL_DISABLE);
    pthread_testcancel();
    expect("not behind the point", 0, 1);
    return unused;
}

/* Starts a thread, lets it come to its wait, cancels it, and answers whether it was cancelled. */
static bool is_cancelled(void *(*routine)(void *), void *argument)
{
    pthread_t thread = 0;
    void *result = NULL;
    expect("create", pthread_create(&thread, NULL, routine, argument), 0);
    sched_yield();
    expect("cancel", pthread_cancel(thread), 0);
    expect("join", pthread_join(thread, &result), 0);
    return result == PTHREAD_CANCELED;
}

static void points(void)
{
    expect("at pthread_testcancel", is_cancelled(test, NULL), true);
    expect("in a sleep", is_cancelled(sleep_long, NULL), true);
    expect("in pthread_cond_wait", is_cancelled(wait_for_signal, NULL), true);
    expect("its handler had the mutex", has_mutex, true);
    has_mutex = false;
    expect("in pthread_cond_timedwait", is_cancelled(wait_for_time, NULL), true);
    expect("its handler had the mutex", has_mutex, true);
    expect("in getchar", is_cancelled(wait_for_input, NULL), true);
    expect("while it computes, ASYNCHRONOUS", is_cancelled(compute, NULL), true);
    expect("at console_put, not in puts", is_cancelled(put_output, NULL), true);
    expect("after it is enabled again", is_cancelled(disable_then_enable, NULL), true);
}

static void joiner(void)
{
    pthread_t target = 0;
    void *result = NULL;
    pthread_create(&target, NULL, sleep_long, NULL);
    expect("in pthread_join", is_cancelled(wait_for_thread, (void *)target), true);
    expect("its target can be cancelled", pthread_cancel(target), 0);
    expect("and joined", pthread_join(target, &result), 0);
    expect("and was cancelled", result == PTHREAD_CANCELED, true);
}

static void mutex_waiter(void)
{
    pthread_t thread = 0;
    void *result = NULL;
    pthread_mutex_lock(&mutex);
    pthread_create(&thread, NULL, wait_for_mutex, (void *)4);
    sched_yield();
    expect("cancel one that waits for a mutex", pthread_cancel(thread), 0);
    pthread_mutex_unlock(&mutex);
    pthread_join(thread, &result);
    expect("it has come by no point", (int)result, 4);
    expect("and the mutex is free", pthread_mutex_trylock(&mutex), 0);
    pthread_mutex_unlock(&mutex);
}

static void refused(void)
{
    pthread_t thread = 0;
    void *result = NULL;
    int old = -1;
    expect("cancel no thread", pthread_cancel(30), ESRCH);
    pthread_create(&thread, NULL, wait_for_mutex, (void *)4);
    sched_yield();
    expect("cancel an ended one", pthread_cancel(thread), 0);
    pthread_join(thread, &result);
    expect("its result stays", (int)result, 4);
    expect("another state", pthread_setcancelstate(2, &old), EINVAL);
    expect("another type", pthread_setcanceltype(2, &old), EINVAL);
    expect("nothing is stored", old, -1);
    expect("asynchronous", pthread_setcanceltype(PTHREAD_CANCEL_ASYNCHRONOUS, &old), 0);
    expect("it was deferred", old, PTHREAD_CANCEL_DEFERRED);
    expect("deferred", pthread_setcanceltype(PTHREAD_CANCEL_DEFERRED, &old), 0);
    expect("it was asynchronous", old, PTHREAD_CANCEL_ASYNCHRONOUS);
}

int main(void)
{
    points();
    joiner();
    mutex_waiter();
    refused();
    return tell();
}
