/* Clocks and sleeping: picolibc's header, and the functions that the profile has. POSIX.1-2017: <time.h>. A tick is
 * 1000 ns. */
#ifndef PTK_TIME_H
#define PTK_TIME_H

#include_next <time.h>

#ifndef CLOCK_MONOTONIC
#define CLOCK_MONOTONIC ((clockid_t)4) /* picolibc's number, which it defines for systems that it knows */
#endif

#ifdef __cplusplus
extern "C" {
#endif

/* Stores the time of a clock at *time and returns 0. Both clocks read the tick at which the call begins.
 * Errors (-1, errno): EINVAL another clock; EFAULT *time does not lie in memory. Call 3.
 * POSIX.1-2017: clock_gettime. */
int clock_gettime(clockid_t clock, struct timespec *time);

/* Sleeps until *time, which is absolute, and returns 0; at once where it has come already. A cancellation point.
 * `remaining` is not looked at. Returns the error's number, not errno.
 * Errors: ENOTSUP flags other than TIMER_ABSTIME, since the profile has no relative sleeping; EINVAL another clock, or
 * nanoseconds below 0 or above 999999999; EFAULT *time does not lie in memory. Call 4.
 * POSIX.1-2017: clock_nanosleep. */
int clock_nanosleep(clockid_t clock, int flags, const struct timespec *time, struct timespec *remaining);

/* Sleeps as long as *duration from now, and returns 0. A cancellation point. `remaining` is not looked at. Calls 3, 4.
 * Errors (-1, errno): EINVAL seconds below 0, or nanoseconds below 0 or above 999999999.
 * POSIX.1-2017: nanosleep. */
int nanosleep(const struct timespec *duration, struct timespec *remaining);

#ifdef __cplusplus
}
#endif

#endif
