/* Policies, priorities and the order of threads: XSH 2.8.4. */
#include <errno.h>
#include <pthread.h>

#include "create.h"

/* Passes twice, and lets others go on in between. */
static void *pass_and_yield(void *letter)
{
    pass((char)(uintptr_t)letter);
    sched_yield();
    pass((char)(uintptr_t)letter);
    return NULL;
}

static void *pass_once(void *letter)
{
    pass((char)(uintptr_t)letter);
    return NULL;
}

/* Passes twice, and computes for more than two intervals of 100 ticks in between. */
static void *pass_and_compute(void *letter)
{
    pass((char)(uintptr_t)letter);
    for (volatile int i = 0; i < 200; i++) {
    }
    pass((char)(uintptr_t)letter);
    return NULL;
}

static void join_all(const pthread_t *threads, int count)
{
    for (int i = 0; i < count; i++) {
        pthread_join(threads[i], NULL);
    }
}

static void equals(void)
{
    pthread_t threads[3];
    for (int i = 0; i < 3; i++) {
        threads[i] = create_at(SCHED_FIFO, 16, pass_and_yield, (char)('a' + i));
    }
    join_all(threads, 3);
    expect_order("equals in the order of their creation", "abcabc");
}

static void greater(void)
{
    pthread_t low = create_at(SCHED_FIFO, 10, pass_once, 'l');
    pthread_t high = create_at(SCHED_FIFO, 20, pass_once, 'h');
    pass('m');
    expect_order("a greater one runs at once, a lower one not", "hm");
    pthread_join(low, NULL);
    pthread_join(high, NULL);
    expect_order("the lower one once main waits", "l");
}

static void moved(void)
{
    pthread_t threads[3];
    pthread_setschedprio(pthread_self(), 20);
    for (int i = 0; i < 3; i++) {
        threads[i] = create_at(SCHED_FIFO, 10, pass_once, (char)('x' + i));
    }
    expect("z falls", pthread_setschedprio(threads[2], 9), 0);
    expect("z rises, to the tail: xyz", pthread_setschedprio(threads[2], 10), 0);
    expect("y rises", pthread_setschedprio(threads[1], 11), 0);
    expect("y falls, to the head: yxz", pthread_setschedprio(threads[1], 10), 0);
    expect("z as it was", pthread_setschedprio(threads[2], 10), 0);
    expect("x to the tail: yzx", pthread_setschedparam(threads[0], SCHED_FIFO, &(struct sched_param){10}), 0);
    join_all(threads, 3);
    expect_order("heads and tails", "yzx");
    pthread_setschedprio(pthread_self(), 16);
}

static void turns(void)
{
    pthread_t threads[2];
    threads[0] = create_at(SCHED_RR, 10, pass_and_compute, 'a');
    threads[1] = create_at(SCHED_RR, 10, pass_and_compute, 'b');
    join_all(threads, 2);
    expect_order("round robin", "abab");
    threads[0] = create_at(SCHED_FIFO, 10, pass_and_compute, 'a');
    threads[1] = create_at(SCHED_FIFO, 10, pass_and_compute, 'b');
    join_all(threads, 2);
    expect_order("first in, first out", "aabb");
}

static void parameters(void)
{
    struct sched_param priority = {.sched_priority = 12};
    int policy = 0;
    pthread_t self = pthread_self();
    expect("set", pthread_setschedparam(self, SCHED_RR, &priority), 0);
    priority.sched_priority = 0;
    expect("set priority 0", pthread_setschedparam(self, SCHED_RR, &priority), EINVAL);
    expect("set another policy", pthread_setschedparam(self, 3, &priority), ENOTSUP);
    expect("set of no thread", pthread_setschedparam(9, 3, &priority), ESRCH);
    expect("get", pthread_getschedparam(self, &policy, &priority), 0);
    expect("policy", policy, SCHED_RR);
    expect("priority", priority.sched_priority, 12);
    expect("get of no thread", pthread_getschedparam(9, &policy, &priority), ESRCH);
    expect("a priority of 33", pthread_setschedprio(self, 33), EINVAL);
    expect("a priority of no thread", pthread_setschedprio(0, 33), ESRCH);
    expect("back", pthread_setschedparam(self, SCHED_FIFO, &(struct sched_param){16}), 0);
    expect("greatest", sched_get_priority_max(SCHED_FIFO), 32);
    expect("least", sched_get_priority_min(SCHED_RR), 1);
    expect("greatest of another policy", sched_get_priority_max(3), -1);
    expect("its error", errno, EINVAL);
}

int main(void)
{
    equals();
    greater();
    moved();
    turns();
    parameters();
    return tell();
}
