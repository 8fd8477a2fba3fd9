/* picolibc's numbers of errors and clocks are others than the kernel's: the translation over every number, and each
 * error, clock and flag met by a call. The kernel's numbers are those of docs/GUEST_ABI.md. */
#define _DEFAULT_SOURCE /* usleep */

#include <errno.h>
#include <pthread.h>
#include <time.h>
#include <unistd.h>

#include "../../picolibc/source/numbers.h"
#include "../expect.h"

/* Names and the kernel's numbers. */
static const struct {
    unsigned int kernel;
    int here;
} pairs[] = {
    {1, EPERM},     {3, ESRCH},    {11, EAGAIN}, {12, ENOMEM},   {14, EFAULT},     {16, EBUSY},       {22, EINVAL},
    {35, EDEADLK},  {38, ENOSYS},  {95, ENOTSUP}, {110, ETIMEDOUT}, {130, EOWNERDEAD}, {131, ENOTRECOVERABLE},
};

enum { PAIRS = sizeof pairs / sizeof pairs[0], NUMBERS = 300 };

static int expected_of(unsigned int number)
{
    for (int i = 0; i < PAIRS; i++) {
        if (pairs[i].kernel == number) {
            return pairs[i].here;
        }
    }
    return number == 0 ? 0 : __ELASTERROR + (int)number;
}

static void every_number(void)
{
    static unsigned char times[__ELASTERROR + NUMBERS];
    int same = 0;
    int distinct = 0;
    for (unsigned int number = 0; number < NUMBERS; number++) {
        int answer = error_number(number);
        same += answer == expected_of(number);
        times[answer]++;
        distinct += times[answer] == 1;
    }
    expect("numbers translated", same, NUMBERS);
    expect("no two to the same", distinct, NUMBERS);
    expect("errors of the kernel", PAIRS, 13);
    expect("a clock that there is not", clock_number((clockid_t)0) > 1, 1);
    for (clockid_t clock = 0; clock < 20; clock++) {
        unsigned int number = clock == CLOCK_REALTIME ? 0 : clock == CLOCK_MONOTONIC ? 1 : 2;
        unsigned int answer = clock_number(clock);
        expect("a clock", (int)(answer > 2 ? 2 : answer), (int)number);
    }
}

/* A call by its number, and the kernel's answer as it is. */
static unsigned int raw_call(unsigned int number, unsigned int argument)
{
    register unsigned int a0 __asm__("a0") = argument;
    register unsigned int a7 __asm__("a7") = number;
    __asm__ volatile("ecall" : "+r"(a0) : "r"(a7) : "a1", "a2", "memory");
    return a0;
}

static pthread_mutex_t robust;

static void *die_with(void *mutex)
{
    pthread_mutex_lock(mutex);
    return NULL;
}

static void mutexes(void)
{
    pthread_mutex_t mutex = PTHREAD_MUTEX_INITIALIZER;
    pthread_mutex_t more[9];
    pthread_mutexattr_t attributes;
    pthread_t thread = 0;
    struct timespec past = {0, 0};
    expect("EPERM", pthread_mutex_unlock(&mutex), EPERM);
    pthread_mutexattr_init(&attributes);
    expect("ENOTSUP of an attribute", pthread_mutexattr_setprotocol(&attributes, 9), ENOTSUP);
    expect("EINVAL", pthread_mutexattr_settype(&attributes, 9), EINVAL);
    pthread_mutexattr_settype(&attributes, PTHREAD_MUTEX_ERRORCHECK);
    pthread_mutexattr_setrobust(&attributes, PTHREAD_MUTEX_ROBUST);
    pthread_mutex_init(&robust, &attributes);
    pthread_create(&thread, NULL, die_with, &robust);
    pthread_join(thread, NULL);
    expect("EOWNERDEAD", pthread_mutex_lock(&robust), EOWNERDEAD);
    expect("EDEADLK of a mutex", pthread_mutex_lock(&robust), EDEADLK);
    expect("EBUSY", pthread_mutex_trylock(&robust), EBUSY);
    pthread_mutex_unlock(&robust);
    expect("ENOTRECOVERABLE", pthread_mutex_lock(&robust), ENOTRECOVERABLE);
    pthread_mutex_lock(&mutex);
    expect("ETIMEDOUT", pthread_mutex_timedlock(&mutex, &past), ETIMEDOUT);
    expect("EFAULT", pthread_mutex_lock((pthread_mutex_t *)2), EFAULT);
    int answer = 0;
    for (int i = 0; i < 9 && answer == 0; i++) {
        answer = pthread_mutex_init(&more[i], NULL);
    }
    expect("ENOMEM", answer, ENOMEM);
}

static void threads(void)
{
    pthread_key_t key = 0;
    expect("ESRCH", pthread_join(30, NULL), ESRCH);
    expect("EDEADLK of a thread", pthread_join(pthread_self(), NULL), EDEADLK);
    struct sched_param parameters = {.sched_priority = 16};
    expect("ENOTSUP of a call", pthread_setschedparam(pthread_self(), 3, &parameters), ENOTSUP);
    expect("SCHED_RR is the kernel's", pthread_setschedparam(pthread_self(), SCHED_RR, &parameters), 0);
    expect("SCHED_FIFO too", pthread_setschedparam(pthread_self(), SCHED_FIFO, &parameters), 0);
    int answer = 0;
    for (int i = 0; i < 5 && answer == 0; i++) {
        answer = pthread_key_create(&key, NULL);
    }
    expect("EAGAIN", answer, EAGAIN);
    expect("ENOSYS, translated", error_number(raw_call(63, 0)), ENOSYS);
}

static void clocks(void)
{
    struct timespec time = {-1, -1};
    struct timespec again = {-1, -1};
    expect("CLOCK_REALTIME", clock_gettime(CLOCK_REALTIME, &time), 0);
    expect("its seconds", time.tv_sec == 0 && time.tv_nsec > 0, 1);
    expect("CLOCK_MONOTONIC", clock_gettime(CLOCK_MONOTONIC, &again), 0);
    expect("it reads the same later", again.tv_nsec > time.tv_nsec, 1);
    errno = 0;
    expect("another clock", clock_gettime((clockid_t)0, &time), -1);
    expect("its error", errno, EINVAL);
    time.tv_nsec = again.tv_nsec + 1000000;
    expect("TIMER_ABSTIME", clock_nanosleep(CLOCK_MONOTONIC, TIMER_ABSTIME, &time, NULL), 0);
    clock_gettime(CLOCK_MONOTONIC, &again);
    expect("it slept so long", again.tv_nsec >= time.tv_nsec, 1);
    expect("a flag that is the kernel's alone", clock_nanosleep(CLOCK_MONOTONIC, 1, &time, NULL), ENOTSUP);
    expect("another clock to sleep by", clock_nanosleep((clockid_t)0, TIMER_ABSTIME, &time, NULL), EINVAL);
}

/* Relative sleeping ends no earlier than POSIX.1-2017, nanosleep, says. */
static void sleeping(void)
{
    struct timespec begin;
    struct timespec end;
    struct timespec duration = {0, 999999999};
    clock_gettime(CLOCK_MONOTONIC, &begin);
    expect("nanosleep", nanosleep(&duration, NULL), 0);
    clock_gettime(CLOCK_MONOTONIC, &end);
    expect("of a second", end.tv_sec == 1 && end.tv_nsec >= begin.tv_nsec - 1, 1);
    expect("it ends soon after", end.tv_nsec < begin.tv_nsec + 1000000, 1);
    expect("sleep", (int)sleep(1), 0);
    expect("usleep", usleep(1500000), 0);
    clock_gettime(CLOCK_MONOTONIC, &end);
    expect("3.5 seconds in all", end.tv_sec == 3 && end.tv_nsec >= 500000000, 1);
    duration.tv_nsec++;
    errno = 0;
    expect("too many nanoseconds", nanosleep(&duration, NULL), -1);
    expect("its error", errno, EINVAL);
}

int main(void)
{
    every_number();
    mutexes();
    threads();
    clocks();
    sleeping();
    return tell();
}
