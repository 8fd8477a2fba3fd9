/* Clocks and sleeping: calls 3 and 4. */
#include <errno.h>
#include <time.h>

#include "call.h"

int clock_gettime(clockid_t clock, struct timespec *time)
{
    int error = call(CALL_CLOCK_GETTIME, clock_number(clock), (uintptr_t)time, 0, 0).error;
    if (error != 0) {
        errno = error;
        return -1;
    }
    return 0;
}

int clock_nanosleep(clockid_t clock, int flags, const struct timespec *time, struct timespec *remaining)
{
    (void)remaining;
    if (flags != TIMER_ABSTIME) {
        return ENOTSUP;
    }
    return call(CALL_CLOCK_NANOSLEEP, clock_number(clock), (uintptr_t)time, 0, 0).error;
}
