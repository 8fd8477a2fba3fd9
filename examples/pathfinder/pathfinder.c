/* What befell Mars Pathfinder in 1997, in short. Three tasks of a spacecraft: the distribution of data (priority 25)
 * and meteorology (5) share the information bus under a mutex; communications (15) do not use it, but compute for long.
 * A watchdog (30) tests at the begin of each cycle whether the distribution of the one before was done, and resets the
 * spacecraft where not. The first byte of input is the mutex's protocol: 0 NONE, 1 INHERIT. */
#include <pthread.h>
#include <stdint.h>
#include <stdio.h>
#include <stdlib.h>
#include <time.h>

enum {
    CYCLES = 8,
    CYCLE = 100000, /* ticks of 1000 ns; half of them are this partition's */
    TICK = 1000,
};

static pthread_mutex_t bus;
static int distributed = 0; /* the last cycle whose data were distributed */

/* Sleeps until a tick after the begin of a cycle. */
static void sleep_until(int cycle, int tick)
{
    struct timespec time = {0, (cycle * CYCLE + tick) * TICK};
    clock_nanosleep(CLOCK_MONOTONIC, TIMER_ABSTIME, &time, NULL);
}

/* Computes: a round has six instructions. */
static void compute(int rounds)
{
    for (volatile int i = 0; i < rounds; i++) {
    }
}

/* At the begin of each cycle: the bus for 600 ticks. */
static void *distribute(void *unused)
{
    for (int cycle = 1; cycle <= CYCLES; cycle++) {
        sleep_until(cycle, 0);
        pthread_mutex_lock(&bus);
        compute(100);
        pthread_mutex_unlock(&bus);
        printf("cycle %d\n", cycle);
        distributed = cycle;
    }
    return unused;
}

/* Late in each cycle: the bus for 15000 ticks, half of which pass in the next cycle. */
static void *observe(void *unused)
{
    for (int cycle = 1; cycle <= CYCLES; cycle++) {
        sleep_until(cycle, 85000);
        pthread_mutex_lock(&bus);
        compute(2500);
        pthread_mutex_unlock(&bus);
    }
    return unused;
}

/* Once, while meteorology has the bus: more than two cycles' computing. */
static void *communicate(void *unused)
{
    sleep_until(3, 95000);
    compute(20000);
    return unused;
}

/* The watchdog is main. */
static _Noreturn void watch(void)
{
    for (int cycle = 2; cycle <= CYCLES; cycle++) {
        sleep_until(cycle, 0);
        if (distributed < cycle - 1) {
            printf("reset in cycle %d\n", cycle);
            exit(1);
        }
    }
    puts("no reset");
    exit(0);
}

static void start(void *(*task)(void *), int priority)
{
    pthread_attr_t attributes;
    pthread_t thread;
    pthread_attr_init(&attributes);
    pthread_attr_setinheritsched(&attributes, PTHREAD_EXPLICIT_SCHED);
    pthread_attr_setschedparam(&attributes, &(struct sched_param){.sched_priority = priority});
    pthread_create(&thread, &attributes, task, NULL);
}

int main(void)
{
    pthread_mutexattr_t attributes;
    pthread_setschedprio(pthread_self(), 30);
    pthread_mutexattr_init(&attributes);
    pthread_mutexattr_setprotocol(&attributes, getchar());
    pthread_mutex_init(&bus, &attributes);
    start(distribute, 25);
    start(communicate, 15);
    start(observe, 5);
    watch();
}
