/* Clocks, sleeping and errno. */
#include <errno.h>
#include <pthread.h>

#include "create.h"

static struct timespec start;

/* The time that is so many microseconds after the start. */
static struct timespec after(long microseconds)
{
    struct timespec time = start;
    time.tv_nsec += microseconds * 1000;
    while (time.tv_nsec >= 1000000000) {
        time.tv_nsec -= 1000000000;
        time.tv_sec++;
    }
    return time;
}

static int is_before(struct timespec left, struct timespec right_hand)
{
    return left.tv_sec < right_hand.tv_sec || (left.tv_sec == right_hand.tv_sec && left.tv_nsec < right_hand.tv_nsec);
}

static void clocks(void)
{
    struct timespec time = {7, 7};
    struct timespec later;
    expect("errno at the start", errno, 0);
    expect("real time", clock_gettime(CLOCK_REALTIME, &time), 0);
    expect("monotonic", clock_gettime(CLOCK_MONOTONIC, &later), 0);
    expect("time goes on", is_before(time, later), 1);
    expect("a tick is 1000 ns", (int)(time.tv_nsec % 1000), 0);
    expect("less than a second so far", (int)time.tv_sec, 0);
    expect("another clock", clock_gettime(2, &time), -1);
    expect("its error", errno, EINVAL);
    errno = 0;
    expect("a bad pointer", clock_gettime(CLOCK_REALTIME, (struct timespec *)-4), -1);
    expect("its error", errno, EFAULT);
    errno = 0;
}

static void sleeping(void)
{
    struct timespec now;
    struct timespec until = after(20000);
    expect("sleep", clock_nanosleep(CLOCK_MONOTONIC, TIMER_ABSTIME, &until, NULL), 0);
    clock_gettime(CLOCK_MONOTONIC, &now);
    expect("not before its time", is_before(now, until), 0);
    until = after(20050);
    expect("within the steps of a few lines", is_before(now, until), 1);
    expect("sleep until a time that has been", clock_nanosleep(CLOCK_REALTIME, TIMER_ABSTIME, &start, NULL), 0);
    expect("sleep until before the first tick",
           clock_nanosleep(CLOCK_REALTIME, TIMER_ABSTIME, &(struct timespec){-1, 0}, NULL), 0);
    expect("relative", clock_nanosleep(CLOCK_REALTIME, 0, &until, NULL), ENOTSUP);
    expect("another clock", clock_nanosleep(2, TIMER_ABSTIME, &until, NULL), EINVAL);
    until.tv_nsec = 1000000000;
    expect("no time", clock_nanosleep(CLOCK_REALTIME, TIMER_ABSTIME, &until, NULL), EINVAL);
    until.tv_nsec = -1;
    expect("no time", clock_nanosleep(CLOCK_REALTIME, TIMER_ABSTIME, &until, NULL), EINVAL);
    expect("errno is not theirs", errno, 0);
}

/* Sleeps until 40000 ticks after the start, a thousand more for each later letter, and passes. */
static void *sleep_and_pass(void *letter)
{
    struct timespec until = after(40000 + 1000 * ((int)letter - 'a'));
    clock_nanosleep(CLOCK_MONOTONIC, TIMER_ABSTIME, &until, NULL);
    pass((char)(uintptr_t)letter);
    return NULL;
}

static void order(void)
{
    pthread_t threads[3];
    threads[0] = create_at(SCHED_FIFO, 17, sleep_and_pass, 'c');
    threads[1] = create_at(SCHED_FIFO, 19, sleep_and_pass, 'b');
    threads[2] = create_at(SCHED_FIFO, 18, sleep_and_pass, 'a');
    for (int i = 0; i < 3; i++) {
        pthread_join(threads[i], NULL);
    }
    expect_order("by their times", "abc");
}

/* What errno is in another thread. */
static void *set_errno(void *number)
{
    errno = (int)number;
    sched_yield();
    return (void *)errno;
}

static void errors(void)
{
    pthread_t thread = 0;
    void *result = NULL;
    errno = 5;
    pthread_create(&thread, NULL, set_errno, (void *)6);
    sched_yield();
    expect("errno here", errno, 5);
    pthread_join(thread, &result);
    expect("errno there", (int)result, 6);
    pthread_join(thread, NULL);
    expect("an error that is answered leaves errno", errno, 5);
}

int main(void)
{
    clock_gettime(CLOCK_MONOTONIC, &start);
    clocks();
    sleeping();
    order();
    errors();
    return tell();
}
