/* Relative sleeping, of which the kernel has none: until the time of the call and as long as is asked for. */
#include <errno.h>
#include <time.h>
#include <unistd.h>

enum {
    NANOSECONDS_OF_SECOND = 1000000000,
    NANOSECONDS_OF_MICROSECOND = 1000,
    MICROSECONDS_OF_SECOND = 1000000,
};

int nanosleep(const struct timespec *duration, struct timespec *remaining)
{
    struct timespec deadline;
    int error = EINVAL;
    (void)remaining; /* no signal ends a sleep early */
    if (duration->tv_sec >= 0 && duration->tv_nsec >= 0 && duration->tv_nsec < NANOSECONDS_OF_SECOND) {
        clock_gettime(CLOCK_MONOTONIC, &deadline);
        deadline.tv_sec += duration->tv_sec;
        deadline.tv_nsec += duration->tv_nsec;
        if (deadline.tv_nsec >= NANOSECONDS_OF_SECOND) {
            deadline.tv_sec++;
            deadline.tv_nsec -= NANOSECONDS_OF_SECOND;
        }
        error = clock_nanosleep(CLOCK_MONOTONIC, TIMER_ABSTIME, &deadline, NULL);
    }
    if (error != 0) {
        errno = error;
        return -1;
    }
    return 0;
}

unsigned int sleep(unsigned int seconds)
{
    struct timespec duration = {.tv_sec = seconds};
    nanosleep(&duration, NULL);
    return 0;
}

int usleep(useconds_t microseconds)
{
    struct timespec duration = {
        .tv_sec = microseconds / MICROSECONDS_OF_SECOND,
        .tv_nsec = (long)(microseconds % MICROSECONDS_OF_SECOND) * NANOSECONDS_OF_MICROSECOND,
    };
    return nanosleep(&duration, NULL);
}
