/* Clocks and sleeping. POSIX.1-2017: <time.h>, of which the profile has what stands here. A tick is 1000 ns. */
#ifndef TIME_H
#define TIME_H

#include <sys/types.h>

#ifdef __cplusplus
extern "C" {
#endif

#define CLOCK_REALTIME 0
#define CLOCK_MONOTONIC 1
#define TIMER_ABSTIME 1

/* A time. The kernel reads and writes the first three words. */
struct timespec {
    time_t tv_sec;
    long tv_nsec;
};

/* Stores the time of a clock at *time and returns 0. Both clocks read the tick at which the call begins.
 * Errors (-1, errno): EINVAL another clock; EFAULT *time does not lie in memory. Call 3.
 * POSIX.1-2017: clock_gettime. */
int clock_gettime(clockid_t clock, struct timespec *time);

/* Sleeps until *time, which is absolute, and returns 0; at once where it has come already. A cancellation point.
 * `remaining` is not looked at. Returns the error's number, not errno.
 * Errors: ENOTSUP flags other than TIMER_ABSTIME, since the profile has no relative sleeping; EINVAL another clock, or
 * nanoseconds below 0 or above 999999999; EFAULT *time does not lie in memory. Call 4.
 * POSIX.1-2017: clock_nanosleep. */
int clock_nanosleep(clockid_t clock, int flags, const struct timespec *time, struct timespec *remaining);

#ifdef __cplusplus
}
#endif

#endif
