/* The system's functions that picolibc's time() and clock() need, over the kernel's clock: time 0 is tick 0. */
#include <stddef.h>
#include <sys/time.h>
#include <sys/times.h>
#include <time.h>

enum { NANOSECONDS_OF_MICROSECOND = 1000 };

int gettimeofday(struct timeval *restrict time, void *restrict zone)
{
    (void)zone;
    struct timespec now;
    int answer = clock_gettime(CLOCK_REALTIME, &now);
    time->tv_sec = now.tv_sec;
    time->tv_usec = now.tv_nsec / NANOSECONDS_OF_MICROSECOND;
    return answer;
}

/* No call gives a program's own time: it is that of the clock. A tick of the clock is one of CLOCKS_PER_SEC,
 * which is 1,000,000. */
clock_t times(struct tms *answer)
{
    struct timespec now;
    clock_gettime(CLOCK_MONOTONIC, &now);
    clock_t ticks = (clock_t)(now.tv_sec * CLOCKS_PER_SEC + now.tv_nsec / NANOSECONDS_OF_MICROSECOND);
    *answer = (struct tms){.tms_utime = ticks};
    return ticks;
}
